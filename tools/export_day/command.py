"""The command line of `tools/export`."""

import argparse
import contextlib
import os
import shutil
import sys
import tempfile
import tomllib

from outside import NotInstalled, library
from whole_files import Refused, look_at_file, look_at_folder

from . import __doc__ as PACKAGE
from .day import parts_of_run, read_parts
from .tables import Tables
from .writers import FILES, write_database, write_folder, write_workbook


# A folder is hardly meant by a name that ends so.
OTHER_FILES = (".xls", ".xlsm", ".xlsb", ".ods", ".numbers", ".csv", ".txt")


class Unknown(Exception):
    """Whether a database has taken the run can not be told."""


def count(word):
    """A run's number."""
    if not (word.isascii() and word.isdigit() and int(word) >= 1):
        raise argparse.ArgumentTypeError(f"{word} is no number from 1 on")
    return int(word)


def words_given(words):
    """What the words of the command line ask for. Ends with status 2 at one that it does not know, and with 0 for help."""
    how = {"usage": argparse.SUPPRESS, "formatter_class": argparse.RawDescriptionHelpFormatter, "allow_abbrev": False}
    known = argparse.ArgumentParser(prog="tools/export", description=PACKAGE, **how)
    known.add_argument("day", metavar="DAY", help=argparse.SUPPRESS)
    known.add_argument("to", metavar="TO", help=argparse.SUPPRESS)
    known.add_argument("--run", type=count, help=argparse.SUPPRESS)
    known.add_argument("--dir", help=argparse.SUPPRESS)
    known.add_argument("--replace", action="store_true", help=argparse.SUPPRESS)
    given = known.parse_args(words)
    if not given.to:
        known.error("TO is empty")
    given.to = os.path.abspath(given.to)
    return given


@contextlib.contextmanager
def day_held(path):
    """A day as a file in which one can go back."""
    if path != "-":
        with open(path, "rb") as held:
            yield held
        return
    with tempfile.TemporaryFile() as held:
        shutil.copyfileobj(sys.stdin.buffer, held)
        held.seek(0)
        yield held


def database_of(path):
    """How the database is reached, and the schema of its tables."""
    name = os.path.basename(path)
    try:
        with open(path, "rb") as held:
            said = tomllib.load(held).get("database")
    except (tomllib.TOMLDecodeError, UnicodeDecodeError) as wrong:
        raise Refused(f"{name}: {wrong}") from None
    text, schema = (said.get("connection"), said.get("schema", "mrp")) if isinstance(said, dict) else (None, None)
    if not isinstance(text, str) or not isinstance(schema, str) or not schema:
        raise Refused(f'{name}: expected [database] with connection = "..", and schema = ".." where it is not mrp')
    return text, schema


def write_to_database(held, parts, path, tables):
    text, schema = database_of(path)
    psycopg2 = library("psycopg2")
    is_ending = False
    try:
        with contextlib.closing(psycopg2.connect(text)) as connection:
            write_database(held, parts, connection, schema, tables)
            is_ending = True
            connection.commit()
    except psycopg2.Error as wrong:
        if is_ending and isinstance(wrong, psycopg2.OperationalError):
            raise Unknown("the connection broke at the very end: look whether the new run is there") from None
        lines = str(wrong).strip().splitlines() or [type(wrong).__name__]
        raise Refused(f"the database refused it: {lines[0]}") from None
    return f"the tables of the schema {schema} are written: {counts(parts)}"


def counts(parts):
    return ", ".join(f"{part.name} {part.rows}" for part in parts)


def write(given):
    """Writes what is asked for, and says what it was."""
    tables, name = Tables(given.dir) if given.dir is not None else None, given.to.casefold()
    is_database, is_workbook = name.endswith(".toml"), name.endswith(".xlsx")
    if name.endswith(OTHER_FILES):
        raise Refused(f"{given.to}: expected a folder, a workbook .xlsx or a .toml that names a database")
    if is_workbook:
        look_at_file(given.to, given.replace)
    elif not is_database:
        look_at_folder(given.to, FILES, given.replace)
    with day_held(given.day) as held:
        parts = parts_of_run(read_parts(held), given.run)
        if is_database:
            return write_to_database(held, parts, given.to, tables)
        (write_workbook if is_workbook else write_folder)(held, parts, given.to, given.replace, tables)
    return f"{given.to} is written: {counts(parts)}"


def main(words):
    given = words_given(words)
    try:
        print(write(given))
    except (Refused, NotInstalled) as refused:
        print(f"export: {refused}\nexport: nothing is written", file=sys.stderr)
        return 1
    except Unknown as unknown:
        print(f"export: {unknown}", file=sys.stderr)
        return 1
    except OSError as failed:
        print(f"export: {failed.filename or given.to}: {failed.strerror}\nexport: nothing is written", file=sys.stderr)
        return 1
    return 0
