"""Tables in a workbook (.xlsx), a sheet a table."""

import datetime
import os
import re
import warnings
import zipfile

from outside import library
from whole_files import Refused

from .found import SheetOfWorkbook, Shown, Unreadable

NO_VALUE = Unreadable("a formula whose value the workbook does not hold: open it in a spreadsheet and save it")
FORMULA = re.compile(rb"<f[ >/]")


def read_workbook(path):
    """The sheets of a workbook, in its order."""
    name = os.path.basename(path)
    openpyxl = library("openpyxl")
    try:
        with warnings.catch_warnings():
            # (it warns of what it leaves out, as colours and lists to choose from)
            warnings.simplefilter("ignore")
            values = openpyxl.load_workbook(path, data_only=True)
            formulas = openpyxl.load_workbook(path) if has_formulas(path) else None
    except OSError:
        raise
    except Exception as wrong:  # (it raises whatever comes up where the text is not as it should be)
        raise Refused(f"{name}: is no workbook that can be read: {type(wrong).__name__}: {wrong}") from None
    return [read_sheet(sheet, formulas and formulas[sheet.title]) for sheet in values.worksheets]


def has_formulas(path):
    """Whether some cell of a workbook is a formula."""
    with zipfile.ZipFile(path) as held:
        names = [name for name in held.namelist() if name.startswith("xl/worksheets/")]
        return any(FORMULA.search(held.read(name)) for name in names)


def read_sheet(sheet, formulas):
    rows = [(row[0].row, [value_of(cell, formulas) for cell in row]) for row in sheet.iter_rows() if row]
    # (a sheet may have a format far below its last row)
    while rows and all(cell is None for cell in rows[-1][1]):
        rows.pop()
    return SheetOfWorkbook(sheet.title, rows, told_of(sheet))


def told_of(sheet):
    """What somebody who looks at the sheet may not expect to be read."""
    rows = sum(1 for it in sheet.row_dimensions.values() if it.hidden)
    columns = sum(1 for it in sheet.column_dimensions.values() if it.hidden)
    told = ["the sheet is hidden, and read like any other"] if sheet.sheet_state != "visible" else []
    told += [f"hidden rows are read like the others: {rows}"] if rows else []
    told += ["hidden columns are read like the others"] if columns else []
    merged = ", ".join(sorted(str(it) for it in sheet.merged_cells.ranges))
    return told + ([f"merged cells are empty, but for the first: {merged}"] if merged else [])


def value_of(cell, formulas):
    """What a cell holds; formulas are of the same sheet, where the workbook has some."""
    value = cell.value
    if value is None:
        is_formula = formulas is not None and formulas[cell.coordinate].data_type == "f"
        return NO_VALUE if is_formula else None
    if cell.data_type == "e":
        return Unreadable(f"the error {value}")
    if isinstance(value, str):
        return value if value.strip() else None
    if isinstance(value, bool):
        return Unreadable(f"the logical value {str(value).upper()}")
    if isinstance(value, (datetime.time, datetime.timedelta)):
        return Unreadable(f"the time of day {value}")
    if isinstance(value, (int, float)):
        return Shown(value, cell.number_format)
    return value
