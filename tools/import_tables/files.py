"""Tables in files as spreadsheets save them: separated by commas, semicolons or tabs, in UTF-8 or UTF-16."""

import codecs
import csv
import io
import os
import re

from whole_files import Refused

from .found import MOST_ABOVE, Sheet, is_nothing, plain_title

# The separators of cells, and how each is called.
SEPARATORS = {",": "commas", ";": "semicolons", "\t": "tabs", "|": "bars"}
NAMED_SEPARATOR = re.compile(r"sep=([,;\t|])(?=[\r\n])", re.IGNORECASE)
# The part of a file, in signs, in which its heads are looked for.
UPPER = 100_000
ENDINGS = (".csv", ".txt", ".tsv", ".csv.txt")
MARKS = {
    codecs.BOM_UTF8: ("utf-8", None),
    codecs.BOM_UTF16_LE: ("utf-16-le", "read as UTF-16"),
    codecs.BOM_UTF16_BE: ("utf-16-be", "read as UTF-16"),
}
# The bytes at the beginning of a workbook, and of one as older programs save it.
WORKBOOKS = (b"PK\x03\x04", b"\xd0\xcf\x11\xe0")


def files_of(folder):
    """The files of a folder that may be tables: their paths by their names."""
    names = sorted(name for name in os.listdir(folder) if not name.startswith("."))
    paths = {name: os.path.join(folder, name) for name in names}
    return {name: path for name, path in paths.items() if os.path.isfile(path) and name != "names.toml"}


def title_of(name):
    """What a file is called without its ending."""
    endings = [ending for ending in ENDINGS if name.casefold().endswith(ending)]
    return name[: -max(map(len, endings))] if endings else ""


def common_front(names, tables):
    """What stands before each table's name where a spreadsheet has saved all sheets of a workbook: `shop-` of `shop-Items.csv`."""
    titles = [title_of(name) for name in names]
    fronts = [{title[: -len(table)] for title in titles if title.casefold().endswith(f"-{table}")} for table in tables]
    common = set.intersection(*fronts) if fronts else set()
    return common.pop() if len(common) == 1 else ""


def read_file(path, heads):
    """The sheet in a file. `heads` are those that are known of its table, by which the separator is told."""
    name = os.path.basename(path)
    with open(path, "rb") as held:
        data = held.read()
    if data.startswith(WORKBOOKS):
        raise Refused(f"{name}: is a workbook under another name; import it alone, or save the sheet as CSV UTF-8")
    text, told = text_of(name, data)
    separator, text = separator_of(text, heads)
    if separator != ",":
        told.append(f"cells are separated by {SEPARATORS[separator]}")
    return Sheet(name, rows_of(name, text, separator), told, separator)


def text_of(name, data):
    """The text of a file, and what was done to read it. A byte that is no UTF-8 becomes a lone surrogate."""
    for mark, (coding, told) in MARKS.items():
        if data.startswith(mark):
            return decode(name, data[len(mark) :], coding), [told] if told else []
    if b"\0" in data[:2]:
        coding = "utf-16-le" if data[1:2] == b"\0" else "utf-16-be"
        return decode(name, data, coding), ["read as UTF-16"]
    return decode(name, data, "utf-8"), []


def decode(name, data, coding):
    how = "surrogateescape" if coding == "utf-8" else "strict"
    try:
        return data.decode(coding, how)
    except UnicodeDecodeError:
        raise Refused(f"{name}: is no text in UTF-16, though it begins like one") from None


def separator_of(text, heads):
    """The separator of the cells, and the text without a line that only names it."""
    if told := NAMED_SEPARATOR.match(text):
        # (its line end stays, so that the lines keep their numbers)
        return told[1], text[told.end() :]
    lines = text[:UPPER].splitlines()[:MOST_ABOVE]

    def known(separator):
        rows = [next(csv.reader([line], delimiter=separator), []) for line in lines]
        return max(((sum(plain_title(cell) in heads for cell in cells), len(cells)) for cells in rows), default=(0, 0))

    return max(SEPARATORS, key=known), text


def rows_of(name, text, separator):
    """The rows that are not blank lines, each with the line on which it begins."""
    reader = csv.reader(io.StringIO(text, newline=""), delimiter=separator, strict=True)
    rows, line = [], 1
    try:
        for cells in reader:
            if cells:
                rows.append((line, [None if is_nothing(cell) else cell for cell in cells]))
            line = reader.line_num + 1
    except csv.Error as wrong:
        raise Refused(f"{name}:{line}: the row can not be read: {wrong}") from None
    return rows
