"""What is found where tables come from: sheets of rows of cells, each with its place."""

from dataclasses import dataclass, field

# Among so many rows the heads are looked for: titles may stand above them.
MOST_ABOVE = 20


@dataclass(frozen=True)
class Unreadable:
    """A cell of which the value can not be told: what it is."""

    what: str


@dataclass(frozen=True)
class Shown:
    """A number of a workbook, with the format in which its sheet shows it."""

    value: object
    form: str

    def __str__(self):
        return str(self.value)


@dataclass
class Sheet:
    """A table as it was found: a title, and rows, each with its number and its cells.

    A cell is a text, a number, a date, or None where it is empty. `told` says what was done to read the sheet. `separator` stands
    between the cells of a file.
    """

    title: str
    rows: list
    told: list = field(default_factory=list)
    separator: str = ","

    def place(self, row, column):
        """How the cell of a row, by its number, and of a column, from 0, is called."""
        del column
        return f"{self.title}:{row}"


class SheetOfWorkbook(Sheet):
    """A sheet of a workbook."""

    def place(self, row, column):
        return f"{self.title}!{letters(column)}{row}"


class Answer(Sheet):
    """What a query answered. The names of its columns are row 0."""

    def place(self, row, column):
        del column
        return f"query {self.title}, row {row}"


def letters(column):
    """How a spreadsheet calls a column, counted from 0: A to Z, AA and so on."""
    column, text = column + 1, ""
    while column:
        column, last = divmod(column - 1, 26)
        text = chr(ord("A") + last) + text
    return text


def is_nothing(cell):
    """Whether a cell is empty, or has spaces alone."""
    return cell is None or (isinstance(cell, str) and not cell.strip())


def plain_title(title):
    """A title as titles are compared: without spaces, marks between words and capitals."""
    return "".join(sign for sign in title.casefold() if sign not in " \u00a0_-.\t\r\n")
