"""The nine tables: their columns, and what stands in the cells of each."""

from enum import Enum

from shop_maker.shop import COLUMNS, STEPPED_ITEMS, TABLES

__all__ = ["CALENDAR_KEYS", "Kind", "TABLES", "WORDS", "all_columns", "columns", "kind_of"]


class Kind(Enum):
    """What a cell holds."""

    NAME = "name"
    NUMBER = "number"
    DATE = "date"
    WORD = "word"


NAMES = {"item", "centre", "order", "parent", "component"}
# The keys of a calendar, in the order in which they have to stand, with what stands at them.
CALENDAR_KEYS = {
    "version": Kind.NUMBER,
    "start": Kind.DATE,
    "weeks": Kind.NUMBER,
    "workdays": Kind.NUMBER,
    "holiday": Kind.DATE,
}
WORDS = {
    ("calendar", "key"): tuple(CALENDAR_KEYS),
    ("items", "class"): ("master", "part"),
    ("items", "lot"): ("lfl", "fixed", "period"),
    ("master", "row"): ("firm", "forecast", "service"),
    ("script", "call"): ("book", "cancel", "ask", "when", "run"),
}


def columns(table, version):
    """The columns of a table, as the version of the tables has them."""
    return (STEPPED_ITEMS if table == "items" and version == 3 else COLUMNS[table]).split(",")


def all_columns(table):
    """The columns that a table has in one version or another."""
    return columns(table, 3)


def kind_of(table, column):
    """What stands in a column; in a calendar's `value` the row's key says it."""
    if (table, column) in WORDS:
        return Kind.WORD
    if column in NAMES:
        return Kind.NAME
    return Kind.DATE if column == "date" else Kind.NUMBER
