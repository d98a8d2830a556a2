"""Dates as spreadsheets and databases write them: `2025-01-20`, `20/01/2025`, `20.01.2025`, or as a workbook keeps them.

Whether the day or the month comes first, the whole column says: a first number past 12 can only be a day.
"""

import datetime
import re
from enum import Enum

from .found import Shown
from .ledger import shown
from .numbers import trimmed
from .unsure import Unsure

EXPECTED = "a date as 2025-01-20"
TIME = r"(?:[ T](?:[01]?\d|2[0-3]):[0-5]\d(?::[0-5]\d(?:\.\d+)?)?)?"
YEAR_FIRST = re.compile(rf"(\d{{4}})([-/.])(\d{{1,2}})\2(\d{{1,2}}){TIME}", re.ASCII)
YEAR_LAST = re.compile(rf"(\d{{1,2}})([-/.])(\d{{1,2}})\2(\d{{4}}|\d\d){TIME}", re.ASCII)
MONTH_NAMED = re.compile(rf"(\d{{1,2}})([- /.])([a-z]{{3,9}})\2(\d{{4}}|\d\d){TIME}", re.ASCII | re.IGNORECASE)
MONTHS = "january february march april may june july august september october november december".split()
EIGHT_DIGITS = re.compile(r"(\d{4})(\d\d)(\d\d)", re.ASCII)
FIRST_YEAR, LAST_YEAR = 1900, 2999


class Order(Enum):
    """What comes first where the year comes last."""

    DAY_FIRST = "dmy"
    MONTH_FIRST = "mdy"


def date_text(year, month, day, text):
    """A date as the tables have it, or Unsure where there is no such day."""
    try:
        date = datetime.date(int(year), int(month), int(day))
    except ValueError:
        raise Unsure(f"{shown(text)} is no day of the calendar", EXPECTED) from None
    if not FIRST_YEAR <= date.year <= LAST_YEAR:
        raise Unsure(f"{shown(text)} is not in the years {FIRST_YEAR} to {LAST_YEAR}", EXPECTED)
    return date.isoformat()


def full_year(year):
    """The year of four digits, or of two since 2000."""
    return year if len(year) == 4 else f"20{year}"


class Dates:
    """Reads the dates of a column."""

    def __init__(self, values, asked=None):
        """`asked` is the order that was asked for."""
        texts = [trimmed(value) for value in values if isinstance(value, str)]
        self.asked, self.seen = asked, {}
        for found in filter(None, map(YEAR_LAST.fullmatch, texts)):
            orders = self.seen.setdefault(found[2], set())
            orders |= {Order.DAY_FIRST} if int(found[1]) > 12 else set()
            orders |= {Order.MONTH_FIRST} if int(found[3]) > 12 else set()
        self.has_dates_of_workbook = any(isinstance(value, datetime.date) for value in values)

    def read(self, value):
        """The date as `2025-01-20`, or Unsure."""
        value = value.value if isinstance(value, Shown) else value
        if isinstance(value, datetime.date):
            return date_text(value.year, value.month, value.day, str(value))
        if isinstance(value, int) and EIGHT_DIGITS.fullmatch(str(value)):
            value = str(value)
        if isinstance(value, (int, float)):
            raise Unsure(f"{value} is a number, and no date", "a cell with the format of a date")
        if not isinstance(value, str):
            raise Unsure(f"{shown(value)} is no date", EXPECTED)
        text = trimmed(value)
        if found := YEAR_FIRST.fullmatch(text):
            return date_text(found[1], found[3], found[4], text)
        if found := EIGHT_DIGITS.fullmatch(text):
            return date_text(*found.groups(), text)
        if found := YEAR_LAST.fullmatch(text):
            return self.read_year_last(found, text)
        if found := MONTH_NAMED.fullmatch(text):
            return self.read_month_named(found, text)
        raise Unsure(f"{shown(text)} is no date", EXPECTED)

    def read_month_named(self, found, text):
        """A date with an English month in the middle, in full or its first three letters."""
        day, _, name, year = found.groups()
        months = [number for number, month in enumerate(MONTHS, start=1) if name.lower() in (month, month[:3])]
        if not months or (len(year) == 2 and self.asked is not Order.DAY_FIRST):
            raise Unsure(f"{shown(text)} is no date that can be only one", EXPECTED)
        return date_text(full_year(year), months[0], day, text)

    def read_year_last(self, found, text):
        first, mark, second, year = found.groups()
        if len(year) == 2 and (not self.asked or mark == "-"):
            raise Unsure(
                f"{shown(text)} has a year of two digits", "four, or --dates dmy or --dates mdy for 01/02/03 and 01.02.03"
            )
        if self.has_dates_of_workbook:
            why = "is a text among dates of the workbook, which may have exchanged their days and months"
            raise Unsure(f"{shown(text)} {why}", "dates of one kind in the column")
        if int(first) == int(second):
            return date_text(full_year(year), first, second, text)
        order = self.order(mark, first, second, text)
        month, day = (second, first) if order is Order.DAY_FIRST else (first, second)
        return date_text(full_year(year), month, day, text)

    def order(self, mark, first, second, text):
        """What comes first in the dates with this mark."""
        seen = self.seen[mark]
        if len(seen) > 1:
            raise Unsure(f"{shown(text)}, and the column has both days and months in front", EXPECTED)
        if self.asked and seen and seen != {self.asked}:
            raise Unsure(f"{shown(text)}, and the column is not as --dates {self.asked.value} says", EXPECTED)
        if not seen and not self.asked:
            day, month = f"day {first} of month {second}", f"day {second} of month {first}"
            raise Unsure(
                f"{shown(text)} could be {day} or {month}", "a date that can be only one: --dates dmy or --dates mdy says which"
            )
        return self.asked or next(iter(seen))


def has_time_of_day(value):
    """Whether a time other than midnight stands behind a date."""
    if isinstance(value, datetime.datetime):
        return value.time() != datetime.time()
    return isinstance(value, str) and ":" in value and bool(re.search(r"[1-9]", re.split("[ T]", trimmed(value))[-1]))
