"""Folders of tables, as desks stand on them."""

import os
import re
import shutil

TOP = os.path.dirname(os.path.dirname(os.path.dirname(os.path.realpath(__file__))))
SHOPS = os.path.join(TOP, "shops")
HEADER = b"desk,call,item,date,quantity,number\n"
JOURNAL = "script.csv"


def get(path):
    """The bytes of a file, or None where there is no file."""
    try:
        with open(path, "rb") as held:
            return held.read()
    except (FileNotFoundError, NotADirectoryError, IsADirectoryError):
        return None


def put(path, text):
    with open(path, "wb") as held:
        held.write(text)


def sections_of(bundle):
    """The tables of a bundle by name, as bytes."""
    tables, name = {}, None
    for line in re.findall(rb"[^\n]*\n|[^\n]+", bundle):
        if line.startswith(b"["):
            name = line.strip()[1:-1].decode()
            tables[name] = b""
        else:
            tables[name] += line
    return tables


def tables_of(shop):
    """The tables of a sample shop, a bundle or a folder."""
    path = os.path.join(SHOPS, shop)
    if os.path.isdir(path):
        names = [name for name in os.listdir(path) if name.endswith(".csv")]
        return {name.removesuffix(".csv"): get(os.path.join(path, name)) for name in names}
    return sections_of(get(f"{path}.bundle"))


def lay_tables(tables, folder):
    """Makes a folder of tables."""
    os.mkdir(folder)
    for name, text in tables.items():
        put(os.path.join(folder, f"{name}.csv"), text)


def copy_tables(folder, journal, to):
    """Makes a folder of the tables of another one, with this journal."""
    os.mkdir(to)
    for name in os.listdir(folder):
        if name.endswith(".csv") and name != JOURNAL:
            shutil.copy(os.path.join(folder, name), to)
    put(os.path.join(to, JOURNAL), journal)


def whole_lines(journal):
    """What stands up to the last line end."""
    return journal[: max(journal.rfind(b"\n"), journal.rfind(b"\r")) + 1]
