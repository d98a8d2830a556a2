"""The records of the nine tables, read from the sheets in which they were found."""

from .dates import Dates, has_time_of_day
from .found import Shown, Unreadable, is_nothing
from .laid_out import STEPPED
from .ledger import shown
from .numbers import Numbers, marks_shown
from .tables import CALENDAR_KEYS, TABLES, WORDS, Kind, columns, kind_of
from .texts import read_name, read_word
from .unsure import Unsure

WORKDAYS = "seven of 0 and 1, from Monday; a cell with the format Text keeps zeros in front"


class Reader:
    """Reads the cells of all tables."""

    def __init__(self, found, names, options, ledger):
        """`found` has the tables by their names, and None for one that is to be empty or can not be laid out."""
        self.found, self.names, self.options, self.ledger = found, names, options, ledger
        self.marks = {table: self.marks_of(laid) for table, laid in found.items() if laid}
        self.knows_version = bool(found.get("calendar"))

    def marks_of(self, laid):
        """The decimal marks that the numbers of a table show."""
        numbers = [column for column in laid.at if kind_of(laid.table, column) is Kind.NUMBER]
        return set().union(*(marks_shown(value for _, value in laid.cells(column)) for column in numbers), set())

    def tables(self):
        """The records of all tables, and their version."""
        calendar = self.records("calendar", 1)
        told = next((cells[1] for cells in calendar if cells[0] == "version"), "1")
        self.knows_version = self.knows_version and bool(told)
        version = 3 if told.lstrip("0") == "3" else 1
        records = {table: self.records(table, version) for table in TABLES if table != "calendar"}
        return {"calendar": self.in_order(calendar), **records}, version

    def records(self, table, version):
        laid = self.found.get(table)
        if not laid:
            return []
        if table == "items" and self.knows_version:
            self.look_at_steps(laid, version)
        read = [self.column(laid, column) for column in columns(table, version)]
        return [list(cells) for cells in zip(*read)]

    def look_at_steps(self, laid, version):
        """Looks whether the items have the columns of their version."""
        there = [column for column in STEPPED if column in laid.at]
        if there and version != 3:
            why = "which only tables of version 3 have; expected a row version,3 in the calendar, or other heads"
            self.ledger.refuse(f"{laid.sheet.title}: there are columns {', '.join(sorted(there))}, {why}")
        lost = [column for column in STEPPED if column not in laid.at and ("items", column) not in self.names.empty]
        if version == 3 and lost:
            self.ledger.refuse(f"{laid.sheet.title}: no column is called {', '.join(sorted(lost))}; expected it in version 3")

    def column(self, laid, column):
        """The texts of a column."""
        cells = laid.cells(column)
        readers = self.readers(laid, column, cells)
        return [self.cell(laid, column, number, value, read) for (number, value), read in zip(cells, readers)]

    def readers(self, laid, column, cells):
        """For each cell of a column, what reads it."""
        values, kind = [value for _, value in cells], kind_of(laid.table, column)
        if laid.table == "calendar" and column == "value":
            return self.calendar_readers(laid, values)
        if kind is Kind.NAME:
            return [read_name] * len(cells)
        if kind is Kind.WORD:
            words, theirs = WORDS[laid.table, column], self.names.words.get((laid.table, column), {})
            return [lambda value: read_word(value, words, theirs)] * len(cells)
        return [(self.dates(values) if kind is Kind.DATE else self.numbers(laid, values)).read] * len(cells)

    def dates(self, values):
        return Dates(values, self.options.dates)

    def numbers(self, laid, values):
        return Numbers(values, self.marks[laid.table], self.options.decimal, laid.sheet.separator)

    def calendar_readers(self, laid, values):
        """What reads each value of the calendar, by its key. The dates are as a column; each number stands for itself."""
        keys = [self.key_of(value) for _, value in laid.cells("key")]
        kinds = [CALENDAR_KEYS.get(key) for key in keys]
        dates = self.dates([value for value, kind in zip(values, kinds) if kind is Kind.DATE])

        def reader(key, kind, value):
            if kind is Kind.DATE:
                return dates.read
            numbers = self.numbers(laid, [value])
            return workdays_reader(numbers) if key == "workdays" else numbers.read if kind else str

        return [reader(*told) for told in zip(keys, kinds, values)]

    def key_of(self, value):
        try:
            return read_word(value, WORDS["calendar", "key"], self.names.words.get(("calendar", "key"), {}))
        except Unsure:
            return None

    def cell(self, laid, column, number, value, read):
        """The text of a cell; the ledger is told where it is another, or where there is none."""
        place, head = laid.place(number, column), laid.heads.get(column, column)
        if is_nothing(value):
            return self.empty(laid, column, place, head)
        try:
            if isinstance(value, Unreadable):
                raise Unsure(value.what, "a value")
            text = read(value)
        except Unsure as unsure:
            self.ledger.refuse(f"{place}: {head}: {unsure}", (laid.sheet.title, head))
            return ""
        if is_change(value, text):
            self.ledger.change(place, head, value, text, (laid.sheet.title, head))
        return text

    def empty(self, laid, column, place, head):
        """What stands for an empty cell: nothing, unless the names say it."""
        text = self.names.empty.get((laid.table, column), "")
        if text:
            self.ledger.change(place, head, "", text, (laid.sheet.title, head))
        return text

    def in_order(self, calendar):
        """The calendar's records in the order in which they have to stand."""
        keys = list(CALENDAR_KEYS)
        ordered = sorted(calendar, key=lambda cells: keys.index(cells[0]) if cells[0] in keys else len(keys))
        if ordered != calendar:
            self.ledger.say(self.found["calendar"].sheet.title, f"the rows are put in order: {', '.join(keys)}")
        return ordered


def workdays_reader(numbers):
    """Reads the workdays of a week, which have no number's meaning."""

    def read(value):
        text = numbers.read(value)
        if len(text) != 7 or set(text) - {"0", "1"}:
            raise Unsure(f"{shown(value)} are no workdays", WORKDAYS)
        return text

    return read


def is_change(value, text):
    """Whether a text says more or less than the cell, or is spelled otherwise.

    A number without decimals and a day are the same, however a workbook or a database keeps them.
    """
    value = value.value if isinstance(value, Shown) else value
    if isinstance(value, (str, int)):
        return str(value) != text
    return has_time_of_day(value)
