"""Tries the edits that a proof has to refuse, all of a crate at a time where that can be, and those of several crates.

  tools/edits                    all edits of all crates: crates/CRATE/edits/*.edit, and those of must-fail/
  tools/edits CRATE [WORD..]     those of one crate, or those of them whose names have one of the words
  tools/edits --lanes N ..       N checks at a time (default 1, with --as-proved as many as processors)
  tools/edits --jobs N ..        N processes for each check (default 4, with --as-proved 1, which takes the fewest processor
                                 minutes, since each process loads again what stands below the crate)
  tools/edits --as-proved ..     reads the names of crates from standard input, a line each, once they and those below them
                                 are proved and built, and tries their edits once enough have come for a check, at the latest
                                 at the input's end; those of crates that are not named by then fail
  tools/edits --in-turn ..       tries a part of the edits whose verdict the landing before has told, as the gate does (below)
  tools/edits --unspoiled ..     tries the copies without their edits, each of which has to be proved
  tools/edits --read ..          tries nothing: says within seconds which edits are bad, as one whose text has moved
  tools/edits --compile ..       tries nothing: says which do not compile, in some seconds for each crate whose libraries are built
  tools/edits --save FOLDER ..   keeps what each check said, and how long each function took, in a folder that is there

What an edit is
    A small wrong change to the code of a crate: a `<` for a `<=`, a case that is left out. It shows that a contract
    means what it says, since the prover has to refuse the changed body. It is a file of lines:
        of: state::BookState::apply      the function whose contract refuses it, by its path below the crate: a method's goes
                                         by the module of its type
        goal: returns c                  the goal of its proof that refuses it (a line that may be left out; below)
        file: src/state.rt               a file of the crate
        old: TEXT                        stands exactly once in that file
        new: TEXT                        what stands there instead
    Further pairs apply to what the earlier ones made, and further lines `of:` name further functions. It lies in the bodies
    of the functions that it names: no contract, type, constant, definition or proof is edited, since others stand on those.
    A line `harmless: WHY` makes it a control, a line `always: WHY` has it tried in every turn.

When an edit counts as refused
    One of the functions that it names is not proved for a reason of its own: the prover lists a goal of that function
    that its search does not prove, or says of the proof written for that function that what it shows is not what has to
    be shown. (That says that this proof no longer fits. It is what a refusal can be: no prover shows that there is none.)
    These count for nothing:
      - that the function calls another that is not proved;
      - that the compiler's front end (names, types, the borrow checker) does not take the text, or that the prover
        cannot read it, since then no contract was tried;
      - that a written proof names something which the edit took away, and all else that is said of such a proof: the
        edit wants another wrong body, which keeps the names;
      - that the check broke off without an answer (a search that stops at its own limits is one).
    An edit that counts for nothing fails, and so does one that is not refused. There is no third end.

Copies: all edits of a crate in one check
    A contract is all that a function's proof knows of the functions that it calls: it is assumed, also where the body
    behind it is wrong. So what refuses a body is in it and in its contract, whatever calls it and whatever else stands in
    the crate. Each edit is laid on a copy of the function that it names: the same text with the edit, behind the function,
    under a name of its own (`cancel_spoiled_7`), with a copy of what is written of the function's proof, in which its name is
    changed too. A copy calls the functions as they stand, and none waits for another, however many there are. So one check
    tells of all.
    There is no copy of a method of a trait, of a member of a cycle of calls and of `main`. Their edits are laid on in
    place, next to the copies, one for a function. A function that calls one that is spoiled in place is refused there too
    where what it has to show itself is not shown, since that hangs by the contract of what it calls alone. What only
    waits is tried again in the next check, without what it waited for.

The goal that refuses it
    A function has dozens of goals, and one that is wrong is dear: the prover tries up to eight ways, each to its limits. So
    an edit may name one goal, as the prover names it. Of its copy no goal is tried but this one and those with a written
    answer (`#[tactic(none)]`), and only this one can refuse it. Where proofs/ has no answer of it, the line goes on with what
    one binds (`c`, or `g c` where the function has type parameters), and the goal is tried in the ways with which the prover
    begins: `search rules`, then `grind` with the lemmas that the function's hints name, then with std's common steps.
    That these show the goal of the function as it stands is seen in the same check, of a copy that has no edit
    (`cancel_as_it_stands`). Where they do not, and where the goal does not refuse the edit, it is tried once more with all
    goals, and a line says so: a line that has gone stale costs time alone. Such a refusal says as much as one by a written
    proof: what shows the goal of the function as it stands does not with the edit. The prover's other ways are not tried.
    A goal is known by its name alone, so an edit that adds or takes away a way out names one without a number in its name. A
    goal that only the edit makes can't be named.

No other bodies
    For the same reason the other functions of the crate need no bodies. In the text that is checked they have none (but
    `loop {}`), and their proofs are left open, which the prover takes by what they state (`--allow-holes`). So nothing is
    proved but what is tried. Where a body is left out is told by the layout (`bodies`), of which little hangs: a
    function whose place that does not tell keeps its body and its proof. Where the check is not believed, its edits are
    tried in the crate as it stands, and so is an edit that is not refused. Of a crate without bodies neither 'proved' nor
    'not refused' is ever told.

Crates together
    A crate without other bodies is handed over as a library in source, a program without its `main`; the crate that is
    checked is an empty one above it. What is shown of a function is the same, but the prover suggests no text for goals that
    stay open: it does that only for the crate that it checks. So one check tries the edits of several crates, and loads once
    what stands below them, and a further one what is left of several. Where the part of one is not believed, none is, and each
    half of the crates is tried so. Crates go together only where all of them are known to be proved: by hand, those that have
    a library.

When such a check, a round, is believed
      - no two edits in place name one function, and their order makes no difference to the text;
      - the check came to its end, as a refusal, and told of every function that was asked for;
      - of what was checked, no function, type or constant is refused for a reason of its own but what the edits name, or
        the copies.
    One that is not believed is split, or, where the compiler's front end does not take some of its copies, tried without these.
    What is left is tried alone: a check of the whole crate, from nothing, with all its
    bodies and this one edit in its place. Only that may say 'not refused'.
    The rounds in the crate as it stands share what they proved, in a folder of this run: what the proofs cite is proved in
    the first and taken in the others. The prover keeps no refusal, and takes what it kept only where that is up to date.

Turns
    With --in-turn an edit may wait where its verdict has to be that of the landing before: since then it has not changed, nor
    have its function and what is written of its proof, nor has what that proof may rest on: of its crate the lemmas and all
    code but bodies, of its crate and of those below the definitions and all public code but bodies, and their lines in
    crates.txt; nor has the toolchain's version. (Bodies of functions that can have no copy count as code that is seen, and
    comments do not.) Of these a run tries the edits of a third of the functions, which the digest of the last commit's tree
    draws.
    Controls and edits with a line `always:` never wait. An edit whose text has moved is bad in every turn.
    The landing before is the commit that tools/landed names. Whoever begins a change writes there the commit that landed
    last; an older one makes more count as changed, and nothing worse. Where git does not tell of that commit, as in a history
    cut short, or where the last one does not stand on it, nothing waits.
    A change of the runner makes nothing count as changed: what is tried is a trial of it. Whoever changes what it believes
    tries all once, without --in-turn.

What an edit is a change of
    A refusal says something only where the function is proved as it stands. In the gate `rt ci` has said so before, and by
    hand a library that `rt` built from the crate as it stands says so. Where neither has, the functions that the edits name are
    proved first.

The controls
    An edit with a line `harmless:` changes nothing that matters. It is tried as the others are: its copy must not be refused
    in the crate without other bodies, and the goal that it names, if it does, has to be shown; and the whole crate has to be
    proved with it in its place, or the run fails.
    --unspoiled tries the copies without their edits, with all goals, those of several crates together too. Each has to be
    proved: so what refuses one is its edit, and not how it was laid. It tries them once more next to the edits in place, where
    none may be refused. It is for whoever changes the runner.

The crates below the edited one have to be built: those of a crate that is named by --as-proved are, else they are built
first. Where the edited crate has a library with its proofs, as `rt check` of a crate above it leaves one, rounds in the
crate as it stands take these. Places that are told are those in the text that was checked: copies make it longer, and left
out bodies shorter.
Those that failed are told once more at the end. The last line is `N edits passed, M failed`; the status is 1 where one
failed.

Where the toolchain is another than the one that the runner knows, it says so at once and ends with status 2, since it reads
the prover's words and takes the toolchain's own script as a module (toolchain.py).

The modules, from the bottom up: `toolchain`; `bodies` (functions, as the layout tells them), `edit_files`, `changes` (what has
changed since a landing), `turns` (which edits wait), `copies`, `rounds` (what one check tries), `verdicts` (what a check says),
`checks` (how it is run), `judging` (what is believed of it), `trial` (a crate's edits), `together` (those of several crates),
`report`, `command`. Their tests are in `tests`; no prover has a part in them: `python3 -B -m unittest discover` in tools.
"""
