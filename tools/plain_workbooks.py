"""Workbooks of plain tables: frozen heads, a format for each cell, and the same bytes from the same cells."""

import re
import zipfile

from outside import library

WIDTHS = (8, 40)
# The moment at which every workbook says it was made.
MADE = b"2000-01-01T00:00:00Z"
MOMENT = re.compile(rb"(<dcterms:(?:created|modified)[^>]*>)[^<]*")


class Book:
    """A workbook, sheet by sheet and row by row. Used by `with`, so that one that is given up is closed."""

    def __init__(self):
        self.openpyxl = library("openpyxl")
        self.book = self.openpyxl.Workbook(write_only=True)
        self.bold = self.openpyxl.styles.Font(bold=True)

    def __enter__(self):
        return self

    def __exit__(self, kind, value, trace):
        if kind:
            for sheet in self.book.worksheets:
                sheet.close()

    def add_sheet(self, title, heads, widths):
        """A sheet with frozen heads. What it gives adds a row of values, each shown in the format that goes with it."""
        sheet = self.book.create_sheet(title)
        sheet.freeze_panes = "A2"
        letter = self.openpyxl.utils.get_column_letter
        for place, (head, width) in enumerate(zip(heads, widths), start=1):
            sheet.column_dimensions[letter(place)].width = max(WIDTHS[0], len(head) + 2, min(width + 2, WIDTHS[1]))
        sheet.append([self.cell(sheet, head, "@", self.bold) for head in heads])
        return lambda row, forms: sheet.append([self.cell(sheet, value, form) for value, form in zip(row, forms)])

    def cell(self, sheet, value, form, font=None):
        """A cell; None where the value is none. A text is a text, also where it begins like a formula."""
        if value is None:
            return None
        cell = self.openpyxl.cell.WriteOnlyCell(sheet, value)
        if isinstance(value, str):
            cell.data_type = "s"
        cell.number_format = form
        if font:
            cell.font = font
        return cell

    def save(self, path, is_packed=True):
        """Writes the workbook; what is not packed has the same bytes whatever packs elsewhere."""
        self.book.save(f"{path}.made")
        how = zipfile.ZIP_DEFLATED if is_packed else zipfile.ZIP_STORED
        with zipfile.ZipFile(f"{path}.made") as made, zipfile.ZipFile(path, "w", how) as held:
            for name in sorted(made.namelist(), key=lambda name: (name != "[Content_Types].xml", name)):
                with made.open(name) as reads, held.open(entry(name, how), "w", force_zip64=True) as writes:
                    if name == "docProps/core.xml":
                        writes.write(MOMENT.sub(rb"\g<1>" + MADE, reads.read()))
                    else:
                        copy(reads, writes)


def entry(name, how):
    told = zipfile.ZipInfo(name, (1980, 1, 1, 0, 0, 0))
    told.compress_type, told.external_attr = how, 0o644 << 16
    return told


def copy(reads, writes):
    while piece := reads.read(1 << 20):
        writes.write(piece)
