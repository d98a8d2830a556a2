"""Proves the program and all crates that it stands on, builds it, and puts it at bin/mrp.

  tools/prove              what is proved and has not changed since is not proved again
  tools/prove --lanes N    N processes at a time, in place of as many as there are processors and as memory holds (4.5 GB each)
  tools/prove --stale      proves nothing: says why bin/mrp is not up to date, and nothing where it is

Crates that do not wait for one another, by crates.txt, are proved in parallel. That with the longest way up to the program has
all of them; the others have one each, at a lower priority, as far as memory holds them too (3 GB each). A line on standard
error says how far it is, as each crate ends and every minute:

  crate 7 of 23, about 18 minutes left

What is left is reckoned from the lines of each crate at the rate seen so far. What the prover says of a crate stands in
crates/CRATE/out/prove.log; the end of it is printed where the crate is not proved, and the status is 1 then.

Libraries are built by the toolchain's own script, loaded as a module (tools/edits_runner/toolchain.py says for which versions),
since its command `rt` keeps a second one out of the crates below. With another version `rt run` proves one crate after the other.

The modules: `crates` (what is to be proved, and what is newer than the program), `schedule` (which crates go next, and how long
all of it takes), `command`. Their tests are in `tests`: `python3 -B -m unittest discover` in tools.
"""
