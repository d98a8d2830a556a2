"""Where tables come from: a folder of files, a workbook, or a file of queries."""

import os
from dataclasses import dataclass

from whole_files import Refused

from .database import read_database
from .files import common_front, files_of, read_file, title_of
from .found import plain_title
from .names import read_toml
from .tables import TABLES
from .workbooks import read_workbook

OTHER_WORKBOOKS = (".xls", ".ods", ".xlsb", ".numbers")
# Tables that a shop may well not have.
MAY_BE_EMPTY = ("centres", "stock", "receipts", "routings", "master", "script")
# How many titles are told where one is looked for.
MOST_TITLES = 20


@dataclass
class Source:
    """Where tables come from: what it has, as 'file', how all of them are called, the sheet of each table that was found, and who
    says which one is meant."""

    kind: str
    titles: list
    sheets: dict
    who_says: str

    def lost(self, table, name, is_first):
        """What to say where a table is not there; it may well be there under another name. The first time what there is is told."""
        called = f"no {self.kind} of that name" if name == table else f"no {self.kind} is called {name}"
        among = f" among {self.listed()}" if is_first and self.titles else ""
        empty = f"; where there is none, --empty {table}" if table in MAY_BE_EMPTY else ""
        return f"{table}: {called}{among}; {self.who_says}{empty}"

    def listed(self):
        """What there is, what is no table first."""
        tables = {sheet.title for sheet in self.sheets.values()}
        titles = sorted(self.titles, key=lambda title: title in tables)
        return ", ".join(titles if len(titles) <= MOST_TITLES else [*titles[:MOST_TITLES], ".."])


def source_of(given, names, ledger):
    """What there is where the tables come from."""
    path = given.source
    if os.path.isdir(path):
        return source_of_folder(given, names, ledger)
    if path.casefold().endswith(OTHER_WORKBOOKS):
        raise Refused(f"{os.path.basename(path)}: is a workbook of another form; save it as .xlsx")
    if path.casefold().endswith(".toml"):
        answers = answers_of(path)
        return Source("query", list(answers), answers, "[queries] has one for each table")
    if path.casefold().endswith((".xlsx", ".xlsm")):
        titled = {sheet.title: sheet for sheet in read_workbook(path)}
        sheets = by_table(titled, lambda title: title, names, ledger)
        return Source("sheet", list(titled), sheets, "names.toml ([tables], with --names) says which it is")
    os.stat(path)  # (where there is nothing, that is told)
    raise Refused(f"{path}: expected a folder, a workbook .xlsx or a file of queries .toml")


def source_of_folder(given, names, ledger):
    files = files_of(given.source)
    front = common_front(files, [table for table in TABLES if table not in given.empty and table not in names.titles])
    paths = by_table(files, lambda name: title_of(name).removeprefix(front), names, ledger)
    sheets = {table: read_file(path, names.known_heads(table)) for table, path in paths.items()}
    return Source("file", list(files), sheets, "names.toml ([tables]) says which it is")


def by_table(titled, short, names, ledger):
    """What belongs to each table, of what has these titles; of what belongs to none the ledger is told."""
    found, used = {}, set()
    for table in TABLES:
        name = plain_title(names.title(table))
        titles = [title for title in titled if name in (plain_title(title), plain_title(short(title)))]
        if len(titles) > 1:
            ledger.refuse(f"{table}: {' and '.join(titles)} are both there; expected one")
        for title in titles[:1]:
            found[table] = titled[title]
        used |= set(titles)
    for title in titled:
        if title not in used:
            ledger.say(title, "is no table, and not read")
    return found


def answers_of(path):
    """The answers of the queries in a file."""
    name, said = os.path.basename(path), read_toml(path)
    database, queries = said.get("database"), said.get("queries")
    text = database.get("connection") if isinstance(database, dict) else None
    if not isinstance(text, str) or not isinstance(queries, dict):
        raise Refused(f'{name}: expected [database] with connection = "..", and [queries] with a query for each table')
    strange = [table for table, query in queries.items() if table not in TABLES or not isinstance(query, str)]
    if strange:
        raise Refused(f"{name}: {strange[0]} in [queries]: expected the name of a table and a query in quotes")
    return read_database(text, queries)
