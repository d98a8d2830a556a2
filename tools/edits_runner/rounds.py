"""Rounds: what one check tries, the texts and copies that this takes, and which edits go together into one."""

import re
from dataclasses import dataclass, field

from .bodies import body_at, emptied, modules_of_types, without_main
from .copies import STANDING, lay_copies, standing_copies
from .edit_files import laid_on, texts_of

# An error of the compiler's front.
ERROR_AT = re.compile(r"(?:\./)?(src/\S+?):(\d+):\d+: error")


@dataclass
class Round:
    """What one check tries: edits with the functions that each is asked of, the texts that this takes, the copies in these,
    with edits and as they stand, whether the other functions have no bodies there, and the paths of those that have none.
    Behind the check: the errors with which it broke off."""

    names: dict = field(default_factory=dict)
    texts: dict = field(default_factory=dict)
    copies: list = field(default_factory=list)
    is_emptied: bool = False
    empty: list = field(default_factory=list)
    errors: list = field(default_factory=list)

    def functions(self):
        return frozenset(copy.path for copy in self.copies).union(*self.names.values())

    def goals(self):
        """The goals that alone are tried of copies, by the copies' paths."""
        return {copy.path: [goal.name for goal in copy.goals] for copy in self.copies if copy.goals}

    def settle(self, told):
        """Calls refused each copy with an edit whose goal is not shown, where it is of the function as it stands: by the same
        answer, or by a written one."""
        for copy in self.copies:
            for goal in copy.goals if not copy.is_as_it_stands() else ():
                why = told.not_shown.get((copy.path, goal.name))
                if why and (not goal.binds or (f"{copy.original}{STANDING}", goal.name) in told.shown):
                    told.refused[copy.path] = why

    def in_error(self, errors):
        """The edits in whose copies these errors of the compiler's front lie."""
        found = set()
        for file, number in (ERROR_AT.match(it).groups() for it in errors if ERROR_AT.match(it)):
            body = body_at(self.texts.get(file, "").split("\n"), int(number) - 1)
            found |= {edit for edit, names in self.names.items() if body and any(it.endswith(f"::{body.name}") for it in names)}
        return [edit for edit in self.names if edit in found]


def round_of(crate, edits, copies):
    """A round of edits, by copies those that have some, and the others in place."""
    every = [copy for edit in edits for copy in copies.get(edit, ())]
    every += standing_copies(crate, [edit for edit in edits if any(copy.goals for copy in copies.get(edit, ()))])
    texts = laid_on(crate, [edit for edit in edits if edit not in copies])
    names = {edit: frozenset(it.path for it in copies[edit]) if edit in copies else edit.functions for edit in edits}
    return Round(names, lay_copies(crate, every, texts), every)


def empty_round(crate, tried):
    """The same round with no bodies but those that it tries, and of a program no `main`, so that it is a library."""
    names = {it.rpartition("::")[2] for it in tried.functions()}
    texts, empty = {**texts_of(crate), **tried.texts}, []
    types = modules_of_types(texts)
    for file, text in texts.items():
        texts[file], paths = emptied(file, text, lambda body: body.name in names, types)
        empty += paths
    if crate.is_program:
        texts["src/main.rt"] = without_main(texts["src/main.rt"])
    return Round(tried.names, texts, tried.copies, True, empty)


# ---- which edits go into one round

def not_in_the_way(crate, edits, stands_on, beside=()):
    """As many of these edits, from the first on, as one round may hold in place next to others by copies."""
    together, needed = [], frozenset().union(*(below(it, stands_on) for it in beside))
    for edit in edits:
        if not edit.functions & needed and not any(is_in_the_way(edit, other, stands_on) for other in together):
            texts = laid_on(crate, [*together, edit])
            if texts is not None and texts == laid_on(crate, [edit, *together]):
                together.append(edit)
    return together


def is_in_the_way(edit, other, stands_on):
    """Whether two edits name one function, or one names a function on which one of the other stands."""
    named, others = edit.functions | below(edit, stands_on), other.functions | below(other, stands_on)
    return bool(edit.functions & others or other.functions & named)


def below(edit, stands_on):
    """The functions on which those that an edit names stand."""
    return set().union(*(stands_on.get(name, ()) for name in edit.functions))
