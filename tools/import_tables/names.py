"""What `names.toml` says: which file or sheet is which table, which head is which column, which word of theirs is ours."""

import os
import tomllib
from dataclasses import dataclass, field

from whole_files import Refused

from .found import plain_title
from .tables import TABLES, WORDS, Kind, all_columns, kind_of


@dataclass
class Names:
    """By table and column, what they are called where the tables come from."""

    titles: dict = field(default_factory=dict)
    heads: dict = field(default_factory=dict)
    words: dict = field(default_factory=dict)
    empty: dict = field(default_factory=dict)

    def title(self, table):
        """What the file or sheet of a table is called."""
        return self.titles.get(table, table)

    def head(self, table, column):
        """What stands above a column."""
        return self.heads.get((table, column), column)

    def known_heads(self, table):
        return {plain_title(self.head(table, column)) for column in all_columns(table)}


def read_toml(path):
    try:
        with open(path, "rb") as held:
            return tomllib.load(held)
    except (tomllib.TOMLDecodeError, UnicodeDecodeError) as wrong:
        raise Refused(f"{os.path.basename(path)}: {wrong}") from None


def read_names(path):
    """The names of a file, or Refused with what it must not say."""
    said = read_toml(path)
    names, wrong = Names(), []
    for part, tables in said.items():
        if part not in ("tables", "columns", "words", "empty") or not isinstance(tables, dict):
            wrong.append(f"[{part}] is none of [tables], [columns.TABLE], [words.TABLE.COLUMN], [empty.TABLE]")
            continue
        for table, told in tables.items():
            wrong += take(names, part, table, told)
    if wrong:
        raise Refused(*(f"{os.path.basename(path)}: {line}" for line in wrong))
    return names


def take(names, part, table, told):
    """Takes what a part says of a table, and answers what is wrong with it."""
    if table not in TABLES:
        return [f"{table} in [{part}] is none of the nine tables"]
    if part == "tables":
        names.titles[table] = told
        return (
            []
            if isinstance(told, str) and told.strip()
            else [f"{table} in [tables]: expected the name of a file or sheet in quotes"]
        )
    if not isinstance(told, dict):
        return [f"expected [{part}.{table}]"]
    strange = [f"{column} in [{part}.{table}] is no column of {table}" for column in told if column not in all_columns(table)]
    if strange:
        return strange
    return [line for column, value in told.items() for line in take_column(names, part, table, column, value)]


def take_column(names, part, table, column, value):
    """The same of what it says of a column."""
    where = f"{column} in [{part}.{table}]"
    if part == "columns":
        names.heads[table, column] = value
        return [] if isinstance(value, str) and value.strip() else [f"{where}: expected the head of a column in quotes"]
    if part == "empty":
        names.empty[table, column] = str(value)
        fits = isinstance(value, int) if kind_of(table, column) is Kind.NUMBER else isinstance(value, str)
        return [] if fits and not isinstance(value, bool) else [f"{where}: expected what stands for an empty cell"]
    ours = WORDS.get((table, column))
    if not ours:
        return [f"{where}: has no words"]
    if not isinstance(value, dict) or any(word not in ours for word in value.values()):
        return [
            f"[{part}.{table}.{column}]: expected lines such as \"their word\" = \"{ours[0]}\", with one of {', '.join(ours)}"
        ]
    names.words[table, column] = {their.strip().casefold(): our for their, our in value.items()}
    return []
