"""The tables that were planned, as far as a day has to agree with them."""

import codecs
import csv
import datetime
import io
import os
import re

from shop_maker.shop import TABLES
from whole_files import Refused

from .weeks import number_in, read_calendar

# A section line, even inside a quoted cell (docs/RULES.md).
SECTION_LINE = re.compile(rb"(?<![^\r\n])\[([a-z]+)\](?![^\r\n])")
# The greatest bundle.
MOST_BYTES = 67_108_864
# The cells of a call that are read.
CELLS_OF_CALLS = {
    "book": ("item", "week", "quantity"),
    "cancel": ("number",),
    "ask": ("item", "week"),
    "when": ("item", "quantity"),
    "run": (),
}


class NotOfTheseTables(Refused):
    """A day contradicts the tables: how."""

    def __init__(self, how):
        super().__init__(f"the day is not of these tables: {how}")


def read_sections(folder):
    """The bytes of each table: the files of a folder, joined as the program joins them."""
    there, joined = set(os.listdir(folder)), b""
    for table in TABLES:
        if f"{table}.csv" in there:
            with open(os.path.join(folder, f"{table}.csv"), "rb") as held:
                joined += f"[{table}]\n".encode() + held.read() + b"\n"
    cut = SECTION_LINE.split(joined)
    return dict(zip(cut[1::2], cut[2::2]))


def records_in(text):
    """The records of a section, without its header. A cell may have any bytes, of which each is taken for a sign."""
    csv.field_size_limit(MOST_BYTES)
    for _ in range(2):
        text = text.lstrip(b"\r\n").removeprefix(codecs.BOM_UTF8)
    return [row for row in csv.reader(io.StringIO(text.decode("latin-1"), newline="")) if row][1:]


class Tables:
    """What a day has to agree with: items, orders and calls, each with its week."""

    def __init__(self, folder):
        self.folder, sections = folder, read_sections(folder)
        lost = [table for table in TABLES if table.encode() not in sections]
        if lost:
            raise Refused(f"{folder}: has no {lost[0]}.csv")
        try:
            self.take({table: records_in(sections[table.encode()]) for table in TABLES})
        except (IndexError, KeyError, ValueError, csv.Error):
            raise Refused(f"{folder}: has tables that can not be read: mrp plan --dir {folder} says what is wrong") from None

    def take(self, records):
        """Takes over the records of all tables."""
        self.calendar = read_calendar(os.path.join(self.folder, "calendar.csv"), records["calendar"])
        self.mondays = self.calendar.mondays()
        self.items = {row[0]: row[1] == "master" for row in records["items"]}
        self.centres = [(row[0], number_in(row[1])) for row in records["centres"]]
        self.firm, self.forecasts, self.services = {item: [] for item in self.items}, set(), {}
        self.scheduled = {}
        for number, (item, kind, date, quantity) in enumerate(records["master"], start=1):
            self.take_master(number, item, kind, self.week("master", number, date), number_in(quantity))
        for number, (item, _, date, quantity) in enumerate(records["receipts"], start=1):
            self.schedule(item, self.week("receipts", number, date), number_in(quantity))
        self.calls = {}
        for number, row in enumerate(records["script"], start=1):
            self.calls.setdefault(number_in(row[0]), []).append(self.call(number, row))

    def week(self, table, number, date):
        """The week of a date in a record."""
        week = self.calendar.week_of(datetime.date.fromisoformat(date))
        if week is None:
            raise NotOfTheseTables(f"{table}.csv, record {number}: {date} is not in their {self.calendar.weeks} weeks")
        return week

    def take_master(self, number, item, kind, week, quantity):
        """Takes a row of the master schedule; one of no pieces counts as none."""
        if kind == "firm":
            self.schedule(item, week, quantity)
        if not quantity:
            return
        if kind == "firm":
            self.firm[item].append((week, quantity))
        elif kind == "forecast":
            self.forecasts.add((item, str(week)))
        else:
            self.services[str(number)] = (item, str(week))

    def schedule(self, item, week, quantity):
        self.scheduled[item, week] = self.scheduled.get((item, week), 0) + quantity

    def call(self, number, row):
        """A record of the script as the history has it: call, item, week, quantity, number."""
        _, call, item, date, quantity, entry = row
        read = {
            "item": lambda: item,
            "week": lambda: str(self.week("script", number, date)),
            "quantity": lambda: str(number_in(quantity)),
            "number": lambda: str(number_in(entry)),
        }
        return (call, *(read[cell]() if cell in CELLS_OF_CALLS[call] else "" for cell in read))
