"""Edits: small wrong changes to functions' bodies, as the files of a crate's folders `edits` and `must-fail` tell them."""

import glob
import os
import re
from dataclasses import dataclass, field

from .bodies import body_at, files_of, modules_of_types, path_of


@dataclass(frozen=True)
class Goal:
    """A goal of a function's proof, by its name, and what an answer of it binds, or nothing where the answer is written."""

    name: str
    binds: str = ""


@dataclass(eq=False)
class Edit:
    """An edit: the functions whose contracts refuse it, by their paths with the crate's name in front; its changes, each a file,
    the text that stands there once, and the text that replaces it; the goal that refuses it, where it names one. A control is
    harmless. One that is always tried waits for no turn (turns.py)."""

    name: str
    functions: frozenset = frozenset()
    pairs: list = field(default_factory=list)
    is_harmless: bool = False
    is_always_tried: bool = False
    goal: Goal | None = None


class BadEdit(Exception):
    """An edit that would show nothing, and why."""


def read_edit(path, crate):
    """The edit of a file. Raises BadEdit, OSError where it cannot be read, and ValueError where it is no text."""
    with open(path, encoding="utf-8") as held:
        return parse_edit(os.path.basename(path), held.read(), crate)


def parse_edit(name, text, crate):
    """The edit that a file's text tells. Raises BadEdit."""
    edit, functions, file, old = Edit(name), set(), None, None
    for line in text.splitlines():
        word, _, rest = line.partition(":")
        rest = rest.removeprefix(" ")
        if word == "of":
            functions.add(f"{crate.name}::{rest.strip()}")
        elif word == "file":
            file = file_named(rest.strip())
        elif word == "old" and file and old is None:
            old = rest
        elif word == "new" and old:
            edit.pairs.append((file, old, rest))
            old = None
        elif word == "harmless" and rest:
            edit.is_harmless = True
        elif word == "always" and rest:
            edit.is_always_tried = True
        elif word == "goal" and rest and not edit.goal:
            goal, _, binds = rest.strip().partition(" ")
            edit.goal = Goal(goal, binds)
        elif line.strip():
            raise BadEdit(f"this line says nothing: {line[:80]}")
    if not edit.pairs or not functions or old is not None:
        raise BadEdit("it has no function (of:), or no whole pair (file:, old:, new:)")
    if all(was == now for _, was, now in edit.pairs):
        raise BadEdit("it changes nothing")
    edit.functions = frozenset(functions)
    require_goal_of_one(crate, edit)
    return edit


def file_named(file):
    """The file of a line `file:`. Raises BadEdit where it is no file of code."""
    if not re.fullmatch(r"src/[\w/]+\.rt", file):
        raise BadEdit(f"{file} is no file of code: an edit of a definition or a proof shows nothing")
    return file


def require_goal_of_one(crate, edit):
    """Raises BadEdit where the goal that an edit names, if it names one, is not told as it has to be."""
    if edit.goal and len(edit.functions) > 1:
        raise BadEdit("a goal is one of one function")
    if edit.goal and is_written(crate, edit) == bool(edit.goal.binds):
        raise BadEdit("what an answer binds stands behind a goal's name where, and only where, proofs/ has no answer of it")


def is_written(crate, edit):
    """Whether the goal that an edit names has a written answer."""
    (path,) = edit.functions
    written = f"{crate.folder}/proofs/{path.partition('::')[2].replace('::', '/')}/Answers.antt"
    if not os.path.exists(written):
        return False
    with open(written, encoding="utf-8") as held:
        return f"pub {edit.goal.name} :" in held.read()


# ---- what an edit changes

def text_of(crate, file):
    """The text of a file of a crate, by its path below the crate's folder."""
    with open(f"{crate.folder}/{file}", encoding="utf-8") as held:
        return held.read()


def texts_of(crate):
    """The texts of all files of a crate's code, by their paths below the crate's folder."""
    return {file: text_of(crate, file) for file in files_of(crate.folder)}


def laid_on(crate, edits):
    """The texts of the files that these edits change, laid on in this order, or None where one cannot be."""
    texts = {}
    for file, old, new in (pair for edit in edits for pair in edit.pairs):
        if file not in texts:
            texts[file] = text_of(crate, file)
        if texts[file].count(old) != 1:
            return None
        texts[file] = texts[file].replace(old, new)
    return texts


def changed_by(crate, edit):
    """The lines that an edit changes: its file, the lines of that as they were and as they are, and the number of one."""
    for file, text in laid_on(crate, [edit]).items():
        # (an edit's texts are of one line each, so lines keep their numbers)
        old, new = text_of(crate, file).split("\n"), text.split("\n")
        yield from ((file, old, new, at) for at, (was, now) in enumerate(zip(old, new)) if was != now)


# What a body may state, which is no code.
STATEMENT = re.compile(r"\b(invariant|decreases|ensures|requires|ghost)\b|prove!")


def require_named_bodies(crate, edit, types):
    """Raises BadEdit unless each line that the edit changes is code in the body of a function that it names, where types are
    declared in these modules."""
    names = {it.rpartition("::")[2] for it in edit.functions}
    for file, old, new, at in changed_by(crate, edit):
        body = body_at(old, at)
        if not body or body.name not in names or STATEMENT.search(old[at] + new[at]):
            raise BadEdit("it lies outside the bodies of the functions that it names")
        path = path_of(file, body, types)
        if path and "::".join([crate.name, *path]) not in edit.functions:
            raise BadEdit(f"it changes {'::'.join(path)}, which no line 'of:' names")


# ---- the edits of a crate

def files_of_edits(folder):
    """The files of edits below a crate's folder. Those of must-fail/ are tried by `rt ci` too, which asks for no reason."""
    found = [path for part in ("edits", "must-fail") for path in glob.glob(f"{folder}/{part}/**", recursive=True)]
    return sorted(path for path in found if os.path.isfile(path) and not path.endswith(".md"))


def edits_of(crate, words):
    """The edits of a crate whose names have one of these words, or all without words; and (name, why) of each that is bad."""
    good, bad, types = [], [], modules_of_types(texts_of(crate))
    for path in files_of_edits(crate.folder):
        name = os.path.basename(path)
        if words and not any(word in name for word in words):
            continue
        try:
            edit = read_edit(path, crate)
            if laid_on(crate, [edit]) is None:
                raise BadEdit("an 'old:' text does not stand exactly once in its file")
            require_named_bodies(crate, edit, types)
            good.append(edit)
        except (BadEdit, OSError, ValueError) as error:
            bad.append((name, str(error)))
    return good, bad
