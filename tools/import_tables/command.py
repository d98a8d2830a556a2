"""The command line of `tools/import`."""

import argparse
import os
import sys

from outside import NotInstalled
from whole_files import Refused, look_at_folder

from . import __doc__ as PACKAGE
from .asked import ask
from .dates import Order
from .folder import FILES, count_records, write_folder
from .found import is_nothing
from .laid_out import lay_out
from .ledger import Ledger
from .names import Names, read_names
from .numbers import Mark
from .records import Reader
from .sources import source_of
from .tables import TABLES


def words_given(words):
    """What the words of the command line ask for. Ends with status 2 at one that it does not know, and with 0 for help."""
    how = {"usage": argparse.SUPPRESS, "formatter_class": argparse.RawDescriptionHelpFormatter, "allow_abbrev": False}
    known = argparse.ArgumentParser(prog="tools/import", description=PACKAGE, **how)
    known.add_argument("source", metavar="FROM", help=argparse.SUPPRESS)
    known.add_argument("folder", metavar="TO", help=argparse.SUPPRESS)
    known.add_argument("--names", help=argparse.SUPPRESS)
    known.add_argument("--dates", choices=[order.value for order in Order], help=argparse.SUPPRESS)
    known.add_argument("--decimal", choices=[mark.name.lower() for mark in Mark], help=argparse.SUPPRESS)
    known.add_argument("--empty", default="", help=argparse.SUPPRESS)
    known.add_argument("--replace", action="store_true", help=argparse.SUPPRESS)
    known.add_argument("--brief", action="store_true", help=argparse.SUPPRESS)
    given = known.parse_args(words)
    if not given.folder:
        known.error("TO is empty")
    given.folder = os.path.abspath(given.folder)
    given.empty = [table for table in given.empty.split(",") if table]
    strange = [table for table in given.empty if table not in TABLES]
    if strange:
        known.error(f"--empty: {strange[0]} is none of {', '.join(TABLES)}")
    given.dates = given.dates and Order(given.dates)
    given.decimal = given.decimal and Mark[given.decimal.upper()]
    return given


def names_given(given):
    """What the names are called: by --names, or by names.toml in the folder."""
    beside = os.path.join(given.source, "names.toml")
    path = given.names or (beside if os.path.isfile(beside) else None)
    return read_names(path) if path else Names()


def lay_out_all(source, given, names, ledger):
    """Each table as it was found, and None for one that is to be empty."""
    found, sheets, lost = {}, source.sheets, []
    for table in TABLES:
        if table in given.empty:
            found[table] = None
            if table in sheets and has_records(table, sheets[table], names):
                ledger.refuse(f"{sheets[table].title}: is there, and --empty has {table}; expected one of them")
        elif table in sheets:
            found[table] = lay_out(table, sheets[table], names, ledger)
        else:
            ledger.refuse(source.lost(table, names.title(table), not lost))
            lost.append(table)
    return found


def has_records(table, sheet, names):
    """Whether there is something in a sheet, heads left out."""
    laid = lay_out(table, sheet, names, Ledger())
    return bool(laid.rows) if laid else any(not is_nothing(cell) for _, cells in sheet.rows for cell in cells)


def tables_of(given, ledger):
    """The records of all tables, and their version; what can not be read, the ledger is told."""
    names = names_given(given)
    found = lay_out_all(source_of(given, names, ledger), given, names, ledger)
    tables, version = Reader(found, names, given, ledger).tables()
    # (of one that can not be laid out the ledger knows already)
    if not tables["script"] and ("script" in given.empty or found.get("script", True)):
        look_at_old_script(given, ledger)
    return tables, version


def look_at_old_script(given, ledger):
    """Tells of the calls of a folder, its order book, of which none are left where it is replaced."""
    old = count_records(given.folder, "script")
    if old and "script" in given.empty:
        ledger.say("script", f"records of the old script.csv that went: {old}")
    elif old:
        line = f"script: has no records, and {given.folder}/script.csv, which it would replace, has {old}"
        ledger.refuse(f"{line}; expected them to be carried over, or --empty script")


def say(*lines):
    """Says lines on standard output, as far as somebody reads them: the tables are written already."""
    try:
        for line in lines:
            print(line.encode("utf-8", "backslashreplace").decode())
        sys.stdout.flush()
    except BrokenPipeError:
        os.dup2(os.open(os.devnull, os.O_WRONLY), sys.stdout.fileno())


def refuse(lines):
    print("".join(f"{line}\n" for line in lines), end="", file=sys.stderr)
    print("import: nothing is written", file=sys.stderr)
    return 1


def main(words):
    given, ledger = words_given(words), Ledger()
    try:
        look_at_folder(given.folder, FILES, given.replace)
        tables, version = tables_of(given, ledger)
        if ledger.refusals:
            return refuse(ledger.lines_of_refusals())
        write_folder(given.folder, tables, version, given.replace)
    except (Refused, NotInstalled) as refused:
        return refuse([*ledger.lines_of_refusals(), *str(refused).splitlines()])
    except OSError as failed:
        return refuse([f"{failed.filename or given.folder}: {failed.strerror}"])
    say(*ledger.lines_of_changes(given.brief))
    say(f"cells written otherwise than they were found: {ledger.cells}", f"{given.folder}: the nine tables are written")
    said, is_well = ask(given.folder)
    say(*said)
    return 0 if is_well else 3
