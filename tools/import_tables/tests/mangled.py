"""A shop's tables as somebody else's spreadsheets might have them, made from a seed."""

import datetime
import os
import random

from import_tables.tables import CALENDAR_KEYS, Kind, kind_of
from outside import library

from .made_up import read_tables, rows_of

CODINGS = ("utf-8", "utf-8-sig", "utf-16", "utf-16-le", "utf-16-be")
DATES = {
    "dmy": ("{d:02}/{m:02}/{y}", "{d}.{m}.{y}", "{d:02}.{m:02}.{y}", "{d}-{m}-{y}"),
    "mdy": ("{m:02}/{d:02}/{y}", "{m}/{d}/{y}"),
}
YEAR_FIRST = ("{y}-{m:02}-{d:02}", "{y}/{m}/{d}", "{y}{m:02}{d:02}", "{y}-{m:02}-{d:02} 00:00:00")


class Mangler:
    """Mangles tables; `options` are the words without which some of it could be read in two ways."""

    def __init__(self, seed):
        self.dice = random.Random(seed)
        self.order, self.decimal = self.dice.choice(("dmy", "mdy")), self.dice.choice(("point", "comma"))
        self.options = ["--dates", self.order, "--decimal", self.decimal]

    def chance(self, per_cent):
        return self.dice.randrange(100) < per_cent

    def tables(self, folder):
        """Each table as rows of texts."""
        return {table: self.table(table, rows_of(text)) for table, text in read_tables(folder).items()}

    def table(self, table, rows):
        heads, rows = rows[0], rows[1:]
        if table == "calendar" and self.chance(30):
            rows = sorted(rows, key=lambda row: (row[0] == "holiday", row[0]))
        forms = {place: self.form(kind_of(table, head)) for place, head in enumerate(heads)}
        if table == "calendar":
            by_key = {key: self.form(kind) if key != "workdays" else str for key, kind in CALENDAR_KEYS.items()}
            by_key["holiday"] = by_key["start"]
            mangled = [[forms[0](key), by_key[key](value)] for key, value in rows]
        else:
            mangled = [[forms[place](cell) if cell else "" for place, cell in enumerate(row)] for row in rows]
        return self.rearranged([[self.head(head) for head in heads], *mangled])

    def head(self, head):
        return self.dice.choice((head, head.upper(), head.capitalize(), f" {head} "))

    def form(self, kind):
        """How the cells of a column are written."""
        spaces = self.dice.choice(("", "", " ", "\u00a0"))
        forms = {
            Kind.NAME: str,
            Kind.WORD: self.dice.choice((str, str.upper, str.capitalize)),
            Kind.NUMBER: self.number(),
            Kind.DATE: self.date(),
        }
        return lambda cell: forms[kind](cell) + spaces

    def date(self):
        form = self.dice.choice(DATES[self.order] + YEAR_FIRST)

        def text(cell):
            date = datetime.date.fromisoformat(cell)
            return form.format(d=date.day, m=date.month, y=date.year)

        return text

    def number(self):
        mark, other = (".", ",") if self.decimal == "point" else (",", ".")
        grouped = self.dice.choice(("", other, "\u00a0", "'"))
        decimals = self.dice.choice(("", "", mark + "0", mark + "00", mark + "000"))
        return lambda cell: f"{int(cell):,}".replace(",", grouped) + decimals

    def rearranged(self, rows):
        """The same in another order of columns, with columns and rows that are not needed."""
        for _ in range(self.dice.choice((0, 0, 1, 2))):
            head, place = f"Note {self.dice.randrange(10**6)}", self.dice.randrange(len(rows[0]) + 1)
            for row in rows:
                row.insert(place, head if row is rows[0] else self.dice.choice(("", "K\u00f6ln; 5,5\t|", '"')))
        order = list(range(len(rows[0])))
        if self.chance(60):
            self.dice.shuffle(order)
        rows = [[row[place] for place in order] for row in rows]
        for _ in range(self.dice.choice((0, 0, 1, 3))):
            rows.insert(self.dice.randrange(len(rows) + 1), [self.dice.choice(("", " "))] * len(order))
        return rows


def quoted(cell, separator, always):
    is_needed = always or any(sign in cell for sign in f'{separator}"\r\n')
    return '"' + cell.replace('"', '""') + '"' if is_needed else cell


def lay_files(mangler, folder, to):
    """Writes the mangled tables of a folder as files."""
    os.mkdir(to)
    for table, rows in mangler.tables(folder).items():
        separator, coding, end = (
            mangler.dice.choice(",;\t|"),
            mangler.dice.choice(CODINGS),
            mangler.dice.choice(("\n", "\r\n", "\r")),
        )
        always = mangler.chance(20)
        text = "".join(separator.join(quoted(cell, separator, always) for cell in row) + end for row in rows)
        name = mangler.dice.choice((f"{table}.csv", f"{table.upper()}.CSV", f"{table.capitalize()}.txt"))
        with open(os.path.join(to, name), "wb") as held:
            held.write(text.encode(coding))


def lay_workbook(mangler, folder, path):
    """Writes them as a workbook, some cells of plain numbers as numbers."""
    book = library("openpyxl").Workbook()
    book.remove(book.active)
    for table, rows in mangler.tables(folder).items():
        sheet = book.create_sheet(mangler.dice.choice((table, table.upper(), f"{table} ")))
        for row in rows:
            sheet.append(
                [
                    mangler.dice.choice((int(cell), float(cell))) if cell.isdigit() and mangler.chance(50) else cell or None
                    for cell in row
                ]
            )
    book.save(path)
