"""Copies of functions, each with one edit or as it stands, and the proofs that are laid for them."""

import glob
import os
import re
import shutil
from dataclasses import dataclass, field

from .bodies import body_at
from .edit_files import changed_by, text_of


@dataclass
class Copy:
    """A function with an edit, or as it stands, under a name of its own: its path, that of the function, the copy's lines, the
    line that they stand behind, and the goals that alone are tried of it, or none where all are, with what hints the function
    gives to the search for its proof."""

    path: str
    original: str
    file: str
    lines: list
    after: int
    goals: list = field(default_factory=list)
    hints: list = field(default_factory=list)

    def is_as_it_stands(self):
        return self.path.endswith(STANDING)


# How the names of copies end: those with an edit, behind which its number stands, and those as the function stands.
SPOILED, STANDING = "_spoiled_", "_as_it_stands"
HINTS = "#[tactic(auto"


def copy_of(path, ending, body, file, lines, goals):
    """A copy of a function that stands in these lines of a file, its name with this ending."""
    above, head, rest = lines[body.first : body.head], lines[body.head], lines[body.head + 1 : body.end + 1]
    head = re.sub(rf"\bfn {body.name}\b", f"fn {body.name}{ending}", head, count=1)
    hints = [line for line in above if goals and line.lstrip().startswith(HINTS)]
    above = [line for line in above if line not in hints] + [f"{body.indent}#[tactic(none)]"] * bool(goals)
    return Copy(f"{path}{ending}", path, file, [*above, head, *rest], body.end, goals, hints)


def copies_of(crate, edit, number, is_spoiled=True):
    """A copy of each function that the edit names, with the edit or as it stands, or None where there can be none."""
    copies, goals = {}, [edit.goal] if edit.goal else []
    for file, old, new, at in changed_by(crate, edit):
        body = body_at(old, at)
        paths = [it for it in edit.functions if it.rpartition("::")[2] == body.name]
        if body.is_bound_to_its_name() or len(paths) != 1:
            return None
        copies[paths[0]] = copy_of(paths[0], f"{SPOILED}{number}", body, file, new if is_spoiled else old, goals)
    return [*copies.values()] if copies.keys() == edit.functions else None


def standing_copies(crate, edits):
    """A copy, as it stands, of each function of which edits name goals without a written answer, to try these goals of it."""
    copies = {}
    for edit in edits:
        if not edit.goal or not edit.goal.binds:
            continue
        (path,) = edit.functions
        file, old, _, at = next(changed_by(crate, edit))
        copy = copies.setdefault(path, copy_of(path, STANDING, body_at(old, at), file, old, [edit.goal]))
        copy.goals = [*dict.fromkeys([*copy.goals, edit.goal])]
    return [*copies.values()]


def lay_copies(crate, copies, texts):
    """These texts of files, and those of the others that get copies, each behind its function: edits keep the lines' numbers."""
    laid = dict(texts)
    for copy in sorted(copies, key=lambda it: -it.after):
        lines = (laid.get(copy.file) or text_of(crate, copy.file)).split("\n")
        lines[copy.after + 1 : copy.after + 1] = ["", *copy.lines]
        laid[copy.file] = "\n".join(lines)
    return laid


# ---- what is written of a copy's proof

def lay_proof(room, copy):
    """Gives a copy what is written of its function's proof, and of those of the closures in it, under its own name."""
    (*above, was), now = copy.original.split("::")[1:], copy.path.rpartition("::")[2]
    for parts in (above, [*above, "fn"]):
        folder = "/".join([room, "proofs", *parts])
        if not os.path.isdir(f"{folder}/{was}"):
            continue
        shutil.copytree(f"{folder}/{was}", f"{folder}/{now}")
        name = re.compile(rf"(?<=\.){re.escape('.'.join([*parts, was]))}(?![\w-])")
        for path in glob.glob(f"{folder}/{now}/**/*.antt", recursive=True):
            with open(path, encoding="utf-8") as held:
                text = held.read()
            with open(path, "w", encoding="utf-8") as out:
                out.write(name.sub(".".join([*parts, now]), text))
    if any(goal.binds for goal in copy.goals):
        lay_answers(room, copy)


IMPORTED = re.compile(r"^use (\S+)\.\{(.*?)\}$", re.M | re.S)
COMMON, GRIND = "Rattle.std.proofs.Common", "Rattle.std.proofs.lemmas.Grind"
WORDS = [(COMMON, "rules"), (COMMON, "arith"), (GRIND, "common_steps")]


def lay_answers(room, copy):
    """Lays answers of the goals that alone are tried of a copy, next to those that are written: what the prover tries first."""
    crate, *parts = copy.path.split("::")
    path = "/".join([room, "proofs", *parts, "Answers.antt"])
    text = ""
    if os.path.exists(path):
        with open(path, encoding="utf-8") as held:
            text = held.read()
    os.makedirs(os.path.dirname(path), exist_ok=True)
    with open(path, "w", encoding="utf-8") as out:
        out.write("\n".join([*imports_of(copy, crate, parts, text), text, *answers_of(copy, crate), ""]))


def imports_of(copy, crate, parts, text):
    """The imports that a copy's answers need and that this text does not have."""
    named = [*WORDS, *named_by(copy, crate, "using"), *named_by(copy, crate, "unfolding")]
    uses = {name: module for module, name in named}
    for it in IMPORTED.finditer(text):
        uses = {name: module for name, module in uses.items() if name not in re.split(r"[,\s]+", it[2])}
    lines = [f"use {module}.{{{name}}}" for name, module in uses.items()]
    if not re.search(r"(?m)^use \S+\.Goals as goal$", text):
        lines.append(f"use Rattle.{crate}.proofs.{'.'.join(parts)}.Goals as goal")
    return lines


def answers_of(copy, crate):
    """The lines of the answers of a copy's goals, each of the ways with which the prover begins."""
    unfolded = [name for _, name in named_by(copy, crate, "unfolding")]
    facts = [[name for _, name in named_by(copy, crate, "using")], ["common_steps"]]
    ways = ", ".join(["search rules", *(f"grind (arith, {', '.join(it)})" for it in facts if it)])
    for goal in copy.goals:
        yield from ["", f"pub {goal.name} : goal.{goal.name}"]
        yield from [f"unfolding {' '.join(unfolded)}"] * bool(unfolded)
        yield f"{goal.name} {goal.binds} = first_of ({ways})"


def named_by(copy, crate, word):
    """The lemmas or definitions that a function's hints name, each with its module."""
    found = re.findall(rf"\b{word}\(([^()]*)\)", "".join(copy.hints))
    paths = [it.strip().split("::") for it in ",".join(found).split(",") if it.strip()]
    return [(".".join(["Rattle", crate if first == "crate" else first, *module]), name) for first, *module, name in paths]


def leave_open(room, crate, path):
    """Leaves the proof of a function open: what stands on it goes by its contract alone."""
    folder, name = "/".join([room, "proofs", *path]), path[-1]
    os.makedirs(folder, exist_ok=True)
    # (a module of this name has its proofs in folders below)
    for written in glob.glob(f"{folder}/*.antt"):
        os.remove(written)
    with open(f"{folder}/Proof.antt", "w", encoding="utf-8") as out:
        out.write(f"use Rattle.{crate.name}.proofs.{'.'.join(path)}.Statement.{{statement}}\n\n")
        out.write(f"pub {name}_spec : {{M : Type 1}} → statement M\n{name}_spec = ?\n")
