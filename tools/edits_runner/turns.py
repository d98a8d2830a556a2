"""Turns: of the edits whose verdict the landing before has told, a run may try those of a third of the functions, as the last commit
draws it."""

import re
import zlib
from dataclasses import dataclass, field

from . import toolchain
from .changes import Changes, NoTurn, changes_since, told_by_git

TURNS = 3
# Names the commit that landed last.
LANDED = "tools/landed"


@dataclass(frozen=True)
class Turn:
    """Which third it is, which commit landed before, and what has changed since."""

    number: int
    landed: str = ""
    changes: Changes = field(default_factory=Changes)


def waits(crate, edit, turn):
    """Whether an edit waits for another turn. Where there is no turn, none does. Those of a function, which have much in common, have
    one turn."""
    if turn is None or edit.is_always_tried or edit.is_harmless or zlib.crc32(min(edit.functions).encode()) % TURNS == turn.number:
        return False
    return not turn.changes.touch(crate, edit)


# ---- what git tells

def turn_at(top, version):
    """The turn that the last commit draws by its tree, where the toolchain is of this version. Raises NoTurn."""
    landed = landing_before(top)
    proved_with = toolchain.named_by(told_by_git(top, "show", f"{landed}:{toolchain.NAMING}"))
    if proved_with != version:
        raise NoTurn(f"{landed[:8]} was proved with {proved_with}, and this is {version}")
    tree = told_by_git(top, "rev-parse", "HEAD^{tree}").strip()
    return Turn(int(tree, 16) % TURNS, landed, changes_since(top, landed))


def landing_before(top):
    """The commit that landed last, as a file names it, on which the last commit has to stand. Raises NoTurn."""
    try:
        with open(f"{top}/{LANDED}", encoding="utf-8") as held:
            named = held.read().strip()
    except (OSError, ValueError) as error:
        raise NoTurn(f"{LANDED}: {error}") from error
    if not re.fullmatch(r"[0-9a-f]{40,}", named):
        raise NoTurn(f"{LANDED} names no commit")
    told_by_git(top, "merge-base", "--is-ancestor", named, "HEAD")
    return named
