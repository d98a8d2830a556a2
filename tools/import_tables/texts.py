"""Names and words."""

import datetime

from .found import Shown
from .ledger import shown
from .numbers import digits_of, trimmed
from .unsure import Unsure

EXPECTED = "a name of printable ASCII"
EXPECTED_TEXT = f"{EXPECTED}, in a cell with the format Text"
# A workbook keeps fifteen digits of a number.
GREATEST_EXACT = 10**15
# Forms in which a workbook shows the digits of a whole number alone.
PLAIN_FORMS = ("General", "0", "@", "#")


def read_name(value):
    """A name without spaces at its ends, or Unsure."""
    if isinstance(value, datetime.date):
        raise Unsure(f"{value} is a date, made of a name by the spreadsheet as it seems", EXPECTED_TEXT)
    if isinstance(value, Shown):
        return read_shown(value)
    if isinstance(value, int):
        return digits_of(value)
    if not isinstance(value, str):
        raise Unsure(f"{shown(value)} is a number", "a name: make it a text in the query")
    text = trimmed(value)
    if not (text.isascii() and text.isprintable()):
        raise Unsure(f"{shown(text)} has a sign that is not printable ASCII", EXPECTED)
    return text


def read_shown(number):
    """A number as a name: its digits, with the zeros in front that the sheet shows."""
    try:
        digits = digits_of(number.value)
    except Unsure:
        digits = None
    if digits and number.value >= GREATEST_EXACT:
        raise Unsure(f"{number.value} may have been rounded", EXPECTED_TEXT)
    if digits and number.form in PLAIN_FORMS:
        return digits
    if digits and set(number.form) == {"0"}:
        return digits.zfill(len(number.form))
    raise Unsure(f"{number.value} is a number, and the name that was meant can not be told", EXPECTED_TEXT)


def read_word(value, words, theirs):
    """One of our words, whatever its capitals; `theirs` has what theirs mean."""
    if isinstance(value, str):
        text = trimmed(value).casefold()
        text = theirs.get(text, text)
        if text in words:
            return text
    raise Unsure(f"{shown(value)} is none of the words", " or ".join(words))
