"""Whole numbers as spreadsheets and databases write them: `12.0`, `1,000`, `1.000,00`, `1 000`.

A mark before three digits may stand before decimals or between groups of digits: `1,000` is 1000 where a point is the decimal
mark, and 1 where a comma is. Which one, the other numbers say: those of the column, then those of the table.
"""

import decimal
import re
from enum import Enum

from .found import Shown
from .ledger import shown
from .unsure import Unsure

EXPECTED = "a whole number"
# Greater ones a spreadsheet may have rounded.
GREATEST_EXACT = 2**53
SPACES = re.compile(r"\d{1,3}(?:([ \u00a0\u2009\u202f'\u2019])\d{3})(?:\1\d{3})*(?:[.,]\d*)?")
SPACE = re.compile(r"[ \u00a0\u2009\u202f'\u2019]")
PLAIN = re.compile(r"\d+", re.ASCII)
# One mark, with one to three digits before it and three behind: it may be either.
EITHER = re.compile(r"[1-9]\d{0,2}([.,])\d{3}", re.ASCII)
GROUPS = re.compile(r"\d{1,3}(?:([.,])\d{3})(?:\1\d{3})+", re.ASCII)
GROUPS_AND_DECIMALS = re.compile(r"\d{1,3}(?:,\d{3})+(\.)\d*|\d{1,3}(?:\.\d{3})+(,)\d*", re.ASCII)
DECIMALS = re.compile(r"\d+([.,])\d*", re.ASCII)


class Mark(Enum):
    """The mark before decimals; the other one is between groups of digits."""

    POINT = "."
    COMMA = ","

    def other(self):
        return Mark.COMMA if self is Mark.POINT else Mark.POINT


def trimmed(value):
    """A text without spaces at its ends, whatever they are."""
    return value.strip().strip("\u00a0\ufeff\u2009\u202f").strip()


def mark_shown(text):
    """The mark before decimals that the form of a number shows, if it can be only one."""
    if SPACES.fullmatch(text):
        text = SPACE.sub("", text)
        return Mark(found[1]) if (found := DECIMALS.fullmatch(text)) else None
    if EITHER.fullmatch(text):
        return None
    if found := GROUPS.fullmatch(text):
        return Mark(found[1]).other()
    if found := GROUPS_AND_DECIMALS.fullmatch(text):
        return Mark(found[1] or found[2])
    found = DECIMALS.fullmatch(text)
    return Mark(found[1]) if found else None


def marks_shown(values):
    """All marks that the texts among cells show."""
    texts = {trimmed(value) for value in values if isinstance(value, str)}
    return {mark for mark in map(mark_shown, texts) if mark}


class Numbers:
    """Reads the numbers of a column."""

    def __init__(self, values, hints=frozenset(), asked=None, separator=","):
        """`hints` has the marks that the table's other columns show; `asked` is the mark that was asked for."""
        self.marks = marks_shown(values)
        if separator == "," and Mark.POINT not in self.marks and has_plain_ones_beside_commas(values):
            # (decimals of a fixed count would stand in all cells; where a comma is before decimals, spreadsheets write semicolons)
            hints = hints | {Mark.POINT}
        self.hints, self.asked = hints, asked

    def mark(self, text):
        """The mark before decimals, for a number that does not show it."""
        told = self.marks or ({self.asked} if self.asked else self.hints)
        if len(told) != 1 or (self.asked and told != {self.asked}):
            whole = text.replace(",", "").replace(".", "")
            parts = f"{decimal.Decimal(text.replace(',', '.')).normalize():f}"
            how = "--decimal point or --decimal comma says which" if not self.asked else "its column shows the other decimal mark"
            how = "its column shows both decimal marks" if len(self.marks) > 1 else how
            raise Unsure(f"{shown(text)} could be {whole} or {parts}", f"a number that can be only one: {how}")
        return next(iter(told))

    def read(self, value):
        """The digits of a whole number, or Unsure."""
        if isinstance(value, Shown):
            if "%" in value.form:
                raise Unsure(f"{value.value} is shown as a percentage", EXPECTED)
            value = value.value
        if isinstance(value, str):
            return self.read_text(trimmed(value))
        if isinstance(value, (int, float, decimal.Decimal)):
            return digits_of(value)
        raise Unsure(f"{shown(value)} is no number", EXPECTED)

    def read_text(self, text):
        if PLAIN.fullmatch(text):
            return text
        whole = SPACE.sub("", text) if SPACES.fullmatch(text) else text
        if not (
            DECIMALS.fullmatch(whole) or GROUPS.fullmatch(whole) or GROUPS_AND_DECIMALS.fullmatch(whole) or PLAIN.fullmatch(whole)
        ):
            raise Unsure(f"{shown(text)} is no number of pieces, weeks or minutes", EXPECTED)
        mark = mark_shown(text) or (None if PLAIN.fullmatch(whole) else self.mark(text))
        whole, _, decimals = whole.replace(mark.other().value, "").partition(mark.value) if mark else (whole, "", "")
        if decimals.strip("0"):
            raise Unsure(f"{shown(text)} has decimals", EXPECTED)
        return whole


def has_plain_ones_beside_commas(values):
    """Whether in a column numbers as `1,000` stand beside numbers without a mark, and none as `1.000`."""
    texts = [trimmed(value) for value in values if isinstance(value, str)]
    marks = {found[1] for found in map(EITHER.fullmatch, texts) if found}
    return marks == {","} and any(PLAIN.fullmatch(text) for text in texts)


def digits_of(number):
    """The digits of a number that is whole and not negative."""
    if isinstance(number, float) and not abs(number) < GREATEST_EXACT:
        raise Unsure(f"{number} may have been rounded", EXPECTED)
    if isinstance(number, decimal.Decimal) and not number.is_finite():
        raise Unsure(f"{number} is no number", EXPECTED)
    if number != int(number):
        raise Unsure(f"{number} has decimals", EXPECTED)
    if number < 0:
        raise Unsure(f"{number} is negative", "a whole number of 0 or more")
    return str(int(number))
