"""A sheet laid out as a table: which of its columns are ours, and the rows that have something in them."""

from dataclasses import dataclass

from .found import MOST_ABOVE, Sheet, is_nothing, plain_title
from .ledger import shown
from .tables import all_columns, columns

# The columns that only tables of version 3 have.
STEPPED = tuple(set(columns("items", 3)) - set(columns("items", 1)))


@dataclass
class LaidOut:
    """A table as it was found: its sheet, where each of our columns stands and what is above it, and its rows."""

    table: str
    sheet: Sheet
    at: dict
    heads: dict
    rows: list

    def cells(self, column):
        """The cells of a column of ours, each with its row's number."""
        at = self.at.get(column)
        return [(number, cells[at] if at is not None and at < len(cells) else None) for number, cells in self.rows]

    def place(self, number, column):
        return self.sheet.place(number, self.at.get(column, 0))


def lay_out(table, sheet, names, ledger):
    """Finds our columns in a sheet, or answers None and tells the ledger why not."""
    rows = [(number, cells) for number, cells in sheet.rows if not all(map(is_nothing, cells))]
    for what in sheet.told:
        ledger.say(sheet.title, what)
    if not rows:
        ledger.refuse(f"{sheet.title}: is empty; expected the heads {','.join(columns(table, 1))}")
        return None
    first = row_of_heads(table, rows, names)
    above, heads, rows = [number for number, _ in rows[:first]], heads_in(rows[first][1]), rows[first + 1 :]
    if above:
        ledger.say(sheet.title, f"rows above the heads are left out: {rows_in_short(above)}")
    at = columns_found(table, sheet, heads, names, ledger)
    if at is None or not are_narrow(sheet, heads, rows, ledger):
        return None
    tell_rows(sheet, rows, len(heads), ledger)
    tell_heads(sheet, heads, at, rows, ledger)
    return LaidOut(table, sheet, at, {column: heads[place] for column, place in at.items()}, rows)


def heads_in(cells):
    return ["" if is_nothing(cell) else str(cell).strip() for cell in cells]


def row_of_heads(table, rows, names):
    """Which row has the heads: the first of the upper ones that has all of them; where none has, the first with the most."""
    needed = {plain_title(names.head(table, column)) for column in needed_columns(table, names)}
    upper = [{plain_title(head) for head in heads_in(cells)} for _, cells in rows[:MOST_ABOVE]]
    return max(range(len(upper)), key=lambda place: len(needed & upper[place]))


def needed_columns(table, names):
    """The columns that a sheet has to have in every version."""
    return [column for column in columns(table, 1) if (table, column) not in names.empty]


def columns_found(table, sheet, heads, names, ledger):
    """Where each column of ours stands, or None."""
    plain = [plain_title(head) for head in heads]
    theirs = {column: names.head(table, column) for column in all_columns(table)}
    at = {column: [place for place, head in enumerate(plain) if head == plain_title(their)] for column, their in theirs.items()}
    twice = [theirs[column] for column, places in at.items() if len(places) > 1]
    taken = [column for column, places in at.items() if is_taken(table, column, places, at, names)]
    lost = [theirs[column] for column in needed_columns(table, names) if not at[column]]
    for their in twice:
        ledger.refuse(f"{sheet.title}: several columns are called {shown(their)}; expected one")
    if lost:
        there = f"its heads are {', '.join(map(shown, heads))}"
        ledger.refuse(
            f"{sheet.title}: no column is called {', '.join(map(shown, lost))}; {there}; names.toml may say which it is"
        )
    for column in taken:
        line = f"{sheet.title}: the column {shown(theirs[column])} is {column}, and the names say another"
        ledger.refuse(f"{line}; expected them to say {column} too")
    return None if twice or lost or taken else {column: places[0] for column, places in at.items() if places}


def is_taken(table, column, places, at, names):
    """Whether the names give a column another meaning than its head has by itself."""
    others = [other for other, theirs in at.items() if other != column and theirs == places and (table, other) in names.heads]
    return bool(places and others) and (table, column) not in names.heads


def are_narrow(sheet, heads, rows, ledger):
    """Whether no row has something right of the heads, as where a comma within a cell has split it."""
    wide = [number for number, cells in rows if not all(map(is_nothing, cells[len(heads) :]))]
    for number in wide:
        line = f"{sheet.place(number, len(heads))}: the row has more cells than there are heads, {len(heads)}"
        ledger.refuse(f"{line}; expected a cell with a comma in quotes", (sheet.title, "rows of too many cells"))
    return not wide


def tell_rows(sheet, rows, width, ledger):
    """Tells of rows that are left out or have fewer cells than heads."""
    nothing = [number for number, cells in sheet.rows if all(map(is_nothing, cells))]
    if nothing:
        ledger.say(sheet.title, f"rows of nothing are left out: {rows_in_short(nothing)}")
    short = [number for number, cells in rows if len(cells) < width]
    if short:
        ledger.say(sheet.title, f"rows of fewer cells are filled up with empty ones: {rows_in_short(short)}")


def tell_heads(sheet, heads, at, rows, ledger):
    """Tells of heads that are spelled otherwise, of columns in another order, and of columns that are left out."""
    others = [f"{shown(heads[place])} is {column}" for column, place in at.items() if heads[place] != column]
    if others:
        ledger.say(sheet.title, f"heads: {', '.join(others)}")
    if list(at.values()) != sorted(at.values()):
        ledger.say(sheet.title, f"the columns are put in order: {','.join(at)}")
    for place, head in enumerate(heads):
        count = sum(1 for _, cells in rows if place < len(cells) and not is_nothing(cells[place]))
        if place not in at.values() and (head or count):
            cells = f"{count} cell" if count == 1 else f"{count} cells"
            ledger.say(sheet.title, f"a column is left out: {shown(head) if head else 'one without a head'}, {cells}")


def rows_in_short(numbers):
    """Rows by their numbers, in short: row 3, or rows 3, 5 to 9."""
    runs = []
    for number in numbers:
        if runs and runs[-1][1] == number - 1:
            runs[-1][1] = number
        else:
            runs.append([number, number])
    listed = ", ".join(str(first) if first == last else f"{first} to {last}" for first, last in runs)
    return f"row {listed}" if len(numbers) == 1 else f"rows {listed}"
