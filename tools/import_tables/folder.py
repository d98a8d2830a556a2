"""The folder of nine files that is written: all of it or nothing."""

import os

from shop_maker.spelling import cell_text
from whole_files import whole_folder

from .tables import TABLES, columns

FILES = tuple(f"{table}.csv" for table in TABLES)


def write_folder(folder, tables, version, is_replaced):
    """Writes the records of all tables to a folder."""
    with whole_folder(folder, FILES, is_replaced) as made:
        for table in TABLES:
            rows = [columns(table, version), *tables[table]]
            with open(os.path.join(made, f"{table}.csv"), "w", encoding="utf-8", newline="") as held:
                held.writelines(",".join(map(cell_text, row)) + "\n" for row in rows)


def count_records(folder, table):
    """How many records a table has in a folder, its header left out; none where it is not there."""
    try:
        with open(os.path.join(folder, f"{table}.csv"), encoding="latin-1") as held:
            return max(sum(1 for line in held if line.strip()) - 1, 0)
    except FileNotFoundError:
        return 0
