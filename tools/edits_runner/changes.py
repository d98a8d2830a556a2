"""What has changed in crates since a commit, as far as the verdict of an edit rests on it.

A crate's interface is what proofs of the crates above it may rest on: its definitions, and its public code without bodies. Its inside
is the rest without bodies, and its lemmas: it counts for the crate's own edits alone, as no lemma makes a wrong body right. A body,
and what is written of its proof, count for the edits of its function: no other proof sees either."""

import os
import re
import subprocess
from dataclasses import dataclass, field

from .bodies import bodies, emptied, files_of, modules_of_types, path_of

OF_A_CRATE = re.compile(r"crates/([^/]+)/(.+)")
OF_AN_EDIT = re.compile(r"(?:edits|must-fail)/(?:.*/)?([^/]+)")
OF_CODE = re.compile(r"src/.+\.rt")
# What is written of the proof of one function, in a folder of its path.
OF_A_PROOF = re.compile(r"proofs/(.+)/(?:Answers|Invariants|Proof)\.antt")
OF_A_LEMMA = re.compile(r"proofs/.+\.antt")
# What no check reads: a page for readers, and what a program is run on.
UNREAD = re.compile(r"README\.md|stdin|stdout|args|status|(?:data|desk|inspect)/.+")


class NoTurn(Exception):
    """Nothing may wait, and why: git tells of no earlier landing, or another toolchain proved that one."""


@dataclass
class Changes:
    """Crates whose interface has changed, and those whose inside has; functions whose bodies or proofs have, by their paths with the
    crate's name in front; edits, as `CRATE/NAME`."""

    interfaces: set = field(default_factory=set)
    insides: set = field(default_factory=set)
    functions: set = field(default_factory=set)
    edits: set = field(default_factory=set)

    def touch(self, crate, edit):
        """Whether the verdict of an edit of this crate may be another."""
        is_own = crate.name in self.insides or f"{crate.name}/{edit.name}" in self.edits or self.functions & edit.functions
        return bool(is_own or self.interfaces & {it.name for it in [crate, *crate.below()]})


def changes_since(top, landed):
    """What has changed since a commit. Raises NoTurn."""
    changes = Changes(interfaces=crates_moved(top, landed))
    places = filter(None, map(OF_A_CRATE.fullmatch, files_changed(top, landed)))
    of_code = {}
    for crate, file in (it.groups() for it in places if not UNREAD.fullmatch(it[2])):
        edit, proof = OF_AN_EDIT.fullmatch(file), OF_A_PROOF.fullmatch(file)
        if edit:
            changes.edits.add(f"{crate}/{edit[1]}")
        elif proof:
            changes.functions.add(function_of(crate, proof[1]))
        elif OF_A_LEMMA.fullmatch(file):
            changes.insides.add(crate)
        elif OF_CODE.fullmatch(file):
            of_code.setdefault(crate, []).append(file)
        else:
            changes.interfaces.add(crate)
    for crate, files in of_code.items():
        add_code(changes, top, landed, crate, files)
    return changes


def function_of(crate, folder):
    """The path of the function of whose proof a folder has something: that of a closure stands in a folder `fn`."""
    return "::".join([crate, *(it for it in folder.split("/") if it != "fn")])


# ---- code

@dataclass
class Code:
    """A file of code: the lines that other crates see, and the others, both without the bodies of functions that can have a copy; and
    the lines of each such function, by its path below the crate."""

    shown: list
    hidden: list
    functions: dict


def add_code(changes, top, landed, crate, files):
    """Adds what has changed in these files of a crate's code."""
    folder = f"{top}/crates/{crate}"
    types = modules_of_types({file: text_now(f"{folder}/{file}") for file in files_of(folder)})
    for file in files:
        was = code_of(file, text_at(top, landed, f"crates/{crate}/{file}"), types)
        now = code_of(file, text_now(f"{folder}/{file}"), types)
        changes.interfaces |= {crate} if was.shown != now.shown else set()
        changes.insides |= {crate} if was.hidden != now.hidden else set()
        differ = (path for path in {*was.functions, *now.functions} if was.functions.get(path) != now.functions.get(path))
        changes.functions |= {f"{crate}::{path}" for path in differ}


# Where a line says nothing to others, or nothing at all: a comment, and where to look for a proof.
UNSAID = re.compile(r"\s*(//.*|#\[tactic\(.*\)\])?$")
COMMENT = re.compile(r"\s*(//.*)?$")
# What begins an item that no other crate sees, up to a semicolon. (A public type may name a private constant.)
HIDDEN = re.compile(r"(pub\([a-z]+\) )?(ghost use|use|mod) ")


def code_of(file, text, types):
    """What a file of code has, where types are declared in these modules."""
    lines = emptied(file, text, lambda body: False, types)[0].split("\n")
    hidden = hidden_in(lines)
    code = Code([], [], functions_in(file, text.split("\n"), types))
    for at, line in enumerate(lines):
        if not UNSAID.match(line):
            (code.hidden if at in hidden else code.shown).append(line)
    return code


def hidden_in(lines):
    """The numbers of the lines that no other crate sees: those of private functions, imports and modules."""
    hidden = set()
    for body in bodies(lines):
        if not body.is_bound_to_its_name() and not lines[body.head].lstrip().startswith("pub "):
            hidden.update(range(body.first, body.end + 1))
    for at in (at for at, line in enumerate(lines) if HIDDEN.match(line)):
        end = next((it for it in range(at, len(lines)) if lines[it].endswith(";")), at)
        hidden.update(range(at, end + 1))
    return hidden


def functions_in(file, lines, types):
    """The lines of each function of a file that can have a copy, but for comments, by its path below the crate."""
    found = {}
    for body in bodies(lines):
        path = None if body.is_bound_to_its_name() else path_of(file, body, types)
        if path:
            found["::".join(path)] = [line for line in lines[body.first : body.end] if not COMMENT.match(line)]
    return found


# ---- what git tells

def files_changed(top, landed):
    """The files of crates that differ from those of a commit, in later ones or in the folder as it is. Raises NoTurn."""
    told = told_by_git(top, "diff", "--name-only", "--no-renames", "-z", landed, "--", "crates")
    return (told + told_by_git(top, "ls-files", "--others", "--exclude-standard", "-z", "--", "crates")).split("\0")


def crates_moved(top, landed):
    """The crates that stand on others than at a commit. Raises NoTurn."""
    with open(f"{top}/crates.txt", encoding="utf-8") as held:
        lines = {*held.read().splitlines()} ^ {*told_by_git(top, "show", f"{landed}:crates.txt").splitlines()}
    return {re.split("[ :]", line)[0] for line in lines}


def text_at(top, landed, path):
    """The text of a file at a commit, or none where it was not there. Raises NoTurn."""
    is_there = told_by_git(top, "ls-tree", "--name-only", landed, "--", path)
    return told_by_git(top, "show", f"{landed}:{path}") if is_there else ""


def text_now(path):
    """The text of a file, or none where it is not there."""
    if not os.path.exists(path):
        return ""
    with open(path, encoding="utf-8", errors="surrogateescape") as held:
        return held.read()


def told_by_git(top, *words):
    """What git says of the repository at this folder. Raises NoTurn where it fails."""
    how = {"stdin": subprocess.DEVNULL, "capture_output": True, "text": True, "errors": "surrogateescape", "check": False}
    try:
        ran = subprocess.run(["git", "-C", top, *words], **how)
    except OSError as error:
        raise NoTurn(f"there is no git: {error}") from error
    if ran.returncode:
        raise NoTurn(f"`git {' '.join(words[:2])}` says: {ran.stderr.strip() or 'no'}")
    return ran.stdout
