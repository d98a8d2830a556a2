"""The sections of a day as files, as a workbook, and in tables of PostgreSQL."""

import csv
import datetime
import decimal
import io
import itertools
import os

from outside import library
from plain_workbooks import Book
from whole_files import Refused, whole_file, whole_folder

from .day import dated_rows, rows_of
from .sections import SECTIONS, Kind, columns, dated_columns

FILES = tuple(f"{section}.csv" for section in SECTIONS)
# The rows of a sheet, its head left out.
MOST_ROWS = 2**20 - 1
# How cells are shown in a workbook, and about how wide.
FORMATS = {
    Kind.TEXT: ("@", 16),
    Kind.NUMBER: ("#,##0", 10),
    Kind.WEEK: ("0", 6),
    Kind.MINUTES: ("#,##0.000", 14),
    Kind.DATE: ("yyyy\\-mm\\-dd", 12),
}
# Greater ones a spreadsheet rounds, so they are written as text; minutes have three decimals.
GREATEST_EXACT = {Kind.NUMBER: 10**15, Kind.MINUTES: 10**12}
TYPES = {Kind.TEXT: "text", Kind.NUMBER: "bigint", Kind.WEEK: "integer", Kind.MINUTES: "numeric", Kind.DATE: "date"}
PIECE = 1 << 16


def write_folder(held, parts, folder, is_replaced, tables):
    """Writes each section as a file."""
    with whole_folder(folder, FILES, is_replaced) as made:
        for part in parts:
            heads = [name for name, _, _ in dated_columns(part.name)] if tables else columns(part.name)
            rows = dated_rows(held, part, tables) if tables else rows_of(held, part)
            with open(os.path.join(made, f"{part.name}.csv"), "w", encoding="utf-8", newline="") as written:
                csv.writer(written, lineterminator="\n").writerows(itertools.chain([heads], rows))


def write_workbook(held, parts, path, is_replaced, tables):
    """Writes each section as a sheet."""
    for part in parts:
        if part.rows > MOST_ROWS:
            raise Refused(f"[{part.name}] has {part.rows} rows, and a sheet takes {MOST_ROWS}: expected a folder or a database")
    with whole_file(path, is_replaced) as made, Book() as book:
        for part in parts:
            add_sheet(book, held, part, tables)
        book.save(made)


def add_sheet(book, held, part, tables):
    told = [(name, kind) for name, kind, is_date in dated_columns(part.name) if tables or not is_date]
    heads, kinds = [name for name, _ in told], [kind for _, kind in told]
    forms, widths = zip(*(FORMATS[kind] for kind in kinds))
    add, values = book.add_sheet(part.name, heads, widths), [VALUES[kind] for kind in kinds]
    for row in dated_rows(held, part, tables) if tables else rows_of(held, part):
        add([value(text) if text else None for text, value in zip(row, values)], forms)


def exact(number, kind):
    """A number, or its text where a spreadsheet would round it."""
    return number if number <= GREATEST_EXACT[kind] else str(number)


# The value of a cell in a workbook.
VALUES = {
    Kind.TEXT: str,
    Kind.NUMBER: lambda text: exact(int(text), Kind.NUMBER),
    Kind.WEEK: int,
    Kind.MINUTES: lambda text: exact(decimal.Decimal(text), Kind.MINUTES),
    Kind.DATE: datetime.date.fromisoformat,
}


def write_database(held, parts, connection, schema, tables):
    """Writes each section into a table of the schema, in place of what was there; nobody sees it before the transaction ends."""
    sql = library("psycopg2.sql")
    comma = sql.SQL(", ")
    with connection.cursor() as cursor:
        # (two exports at once wait for one another)
        cursor.execute("select pg_advisory_xact_lock(hashtext('mrp export ' || %s))", [schema])
        cursor.execute("set local client_min_messages = warning")
        cursor.execute(sql.SQL("create schema if not exists {}").format(sql.Identifier(schema)))
        for part in parts:
            table, told = sql.Identifier(schema, part.name), list(dated_columns(part.name))
            cells = [sql.SQL(f"{{}} {TYPES[kind]}").format(sql.Identifier(name)) for name, kind, _ in told]
            names = [sql.Identifier(name) for name, _, _ in told]
            cursor.execute(sql.SQL("create table if not exists {} ({})").format(table, comma.join(cells)))
            cursor.execute(sql.SQL("delete from {}").format(table))
            copy = sql.SQL("copy {} ({}) from stdin with (format csv)").format(table, comma.join(names))
            copy_rows(cursor, copy, Pieces(dated_rows(held, part, tables)))


def copy_rows(cursor, copy, pieces):
    """Copies rows into a table. What is wrong with one of them is told as it is, and not as the database has it."""
    try:
        cursor.copy_expert(copy, pieces)
    except library("psycopg2").Error as wrong:
        raise pieces.refused or wrong


class Pieces:
    """Rows, as a file of csv that is read in pieces."""

    def __init__(self, rows):
        self.rows, self.rest, self.refused = self.watched(rows), "", None

    def watched(self, rows):
        try:
            yield from rows
        except Refused as refused:
            self.refused = refused
            raise

    def read(self, size=PIECE):
        while len(self.rest) < size:
            more = io.StringIO()
            csv.writer(more, lineterminator="\n").writerows(itertools.islice(self.rows, 1000))
            if not more.tell():
                break
            self.rest += more.getvalue()
        piece, self.rest = self.rest[:size], self.rest[size:]
        return piece
