"""The list of what was changed, and of what was refused."""

from dataclasses import dataclass, field

# Past so many cells of a column that are refused for one reason, the others are only counted.
MOST_ALIKE = 20
# How many changes of a kind in a column `--brief` shows.
BRIEF = 3


@dataclass
class Ledger:
    """Changes and refusals, in the order in which they were met."""

    changes: list = field(default_factory=list)
    refusals: list = field(default_factory=list)
    cells: int = 0

    def say(self, title, what):
        """What was done to a table as a whole."""
        self.changes.append((f"{title}: {what}", None))

    def change(self, place, head, before, after, kind):
        """A cell is written otherwise than it was found."""
        self.cells += 1
        self.changes.append((f"{place}: {head}: {shown(before)} is written {after}", kind))

    def refuse(self, line, kind=None):
        """What can not be told for sure. Those of one kind are told together."""
        self.refusals.append((line, kind))

    def lines_of_changes(self, is_brief):
        yield from shortened(self.changes, BRIEF if is_brief else None)

    def lines_of_refusals(self):
        yield from shortened(self.refusals, MOST_ALIKE)


def shortened(told, most):
    """The lines; past so many of one kind, a count stands for the others."""
    counts, seen = {}, {}
    for _, kind in told:
        counts[kind] = counts.get(kind, 0) + 1
    for line, kind in told:
        seen[kind] = seen.get(kind, 0) + 1
        if kind is None or most is None or seen[kind] <= most:
            yield line
        elif seen[kind] == counts[kind]:
            yield f"{kind[0]}: {kind[1]}: {counts[kind] - most} more like these"


def shown(value):
    """A cell as it was found, in quotes where it is a text."""
    text = str(value).encode("utf-8", "backslashreplace").decode() if isinstance(value, str) else str(value)
    text = "".join(sign if sign.isprintable() else sign.encode("unicode_escape").decode() for sign in text)
    text = text if len(text) <= 60 else f"{text[:60]}.."
    return f"'{text}'" if isinstance(value, str) else text
