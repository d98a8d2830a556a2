"""The tables of a site, as far as links between sites need them."""

import codecs
import csv
import hashlib
import io
import os
import re
from dataclasses import dataclass

from export_day.tables import MOST_BYTES
from export_day.weeks import read_calendar
from shop_maker.shop import COLUMNS, STEPPED_ITEMS, TABLES
from whole_files import Refused

# Where a file has such a line, it is more than one table (docs/RULES.md).
BRACKET = re.compile(rb"(?<![^\r\n])\[")
HEADERS = {table: (COLUMNS[table], STEPPED_ITEMS) if table == "items" else (COLUMNS[table],) for table in TABLES}
csv.field_size_limit(MOST_BYTES)


@dataclass
class Record:
    """A record of a table, and the line of the file in which it ends."""

    line: int
    cells: list


def records_in(data):
    """The records of a table with its header. A cell may have any bytes, of which each is taken for a sign."""
    text = data.removeprefix(codecs.BOM_UTF8).decode("latin-1")
    rows = csv.reader(io.StringIO(text, newline=""))
    return [Record(rows.line_num, row) for row in rows if row]


def text_of(rows):
    """A table of these rows, as bytes."""
    held = io.StringIO(newline="")
    csv.writer(held, lineterminator="\n").writerows(rows)
    return held.getvalue().encode("latin-1")


class Tables:
    """The files of a site's tables, as they were at one time: their bytes by the names of the tables. One that is not there, or
    can't be read, has none."""

    def __init__(self, files):
        self.files = files

    @staticmethod
    def read(folder):
        files = {}
        for table in TABLES:
            try:
                with open(os.path.join(folder, f"{table}.csv"), "rb") as held:
                    files[table] = held.read()
            except OSError:
                files[table] = None
        return Tables(files)

    def write(self, folder):
        """Writes the files that are there."""
        for table, data in self.files.items():
            if data is not None:
                with open(os.path.join(folder, f"{table}.csv"), "wb") as held:
                    held.write(data)

    def sum(self):
        """What tells these tables from others."""
        sums = [hashlib.sha256(data).hexdigest() if data is not None else "" for data in self.files.values()]
        return hashlib.sha256(" ".join(sums).encode()).hexdigest()

    def records(self, table):
        """The records of a table without its header, or None where the file is not that table alone, under its header."""
        data = self.files[table]
        try:
            records = records_in(data) if data and not BRACKET.search(data) else []
        except csv.Error:
            return None
        if not records or ",".join(records[0].cells) not in HEADERS[table]:
            return None
        return records[1:]

    def look(self, *names):
        """Refuses the first of these tables that is not alone in its file, where the program may find it but links do not."""
        for name in names:
            if self.records(name) is None:
                raise Refused(f"{name}.csv: expected a file with this table alone, since links need it")

    def calendar(self):
        """The site's calendar. Refused where it can't be read."""
        records = self.records("calendar")
        if records is None or any(len(record.cells) != 2 for record in records):
            raise Refused("calendar.csv: can't be read")
        return read_calendar("calendar.csv", [record.cells for record in records])

    def classes(self):
        """The class of each item, in the order of the table, or None where the table can't be read."""
        records = self.records("items")
        if records is None or any(len(record.cells) < 2 for record in records):
            return None
        return {record.cells[0]: record.cells[1] for record in records}
