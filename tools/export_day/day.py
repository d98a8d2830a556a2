"""A day: where its sections stand in the file, and their rows."""

import csv
import re
from dataclasses import dataclass

from whole_files import Refused

from .agreement import agreeing
from .sections import FORMS, HISTORY, PLAIN, RUN_SECTIONS, WEEK_VALUES, Kind, columns, kind_of
from .tables import NotOfTheseTables


@dataclass
class Part:
    """A section of a day: its name, the line of its header, where its rows begin in the file, and their count."""

    name: str
    line: int
    begin: int = 0
    rows: int = 0


def read_parts(held):
    """The sections of a day, in their order."""
    parts, at, header = [], 0, False
    for number, line in enumerate(held, start=1):
        if line.startswith(b"["):
            parts.append(Part(name_of(line, parts, number), number + 1))
            header = True
        elif not parts:
            raise Refused("line 1: is no day: it does not begin with [history]")
        elif header:
            look_at_header(parts[-1], line)
            parts[-1].begin, header = at + len(line), False
        else:
            parts[-1].rows += 1
        at += len(line)
        if not line.endswith(b"\n"):
            raise Refused(f"line {number}: the day breaks off")
    look_at_end(parts, header)
    return parts


def expected_after(parts):
    """The name of the next section."""
    return HISTORY if not parts else RUN_SECTIONS[(len(parts) - 1) % len(RUN_SECTIONS)]


def name_of(line, parts, number):
    expected = expected_after(parts)
    if line != f"[{expected}]\n".encode():
        raise Refused(f"line {number}: is no day: expected [{expected}]")
    return expected


def look_at_header(part, line):
    expected = ",".join(columns(part.name))
    if line != f"{expected}\n".encode():
        raise Refused(f"line {part.line}: is no day: expected {expected}")


def look_at_end(parts, header):
    if header:
        raise Refused("the day breaks off")
    if len(parts) <= 1 or (len(parts) - 1) % len(RUN_SECTIONS):
        raise Refused(f"the day breaks off: expected [{expected_after(parts)}]")


def parts_of_run(parts, run):
    """The history, and the sections of a run, counted from 1, or of the last."""
    runs = (len(parts) - 1) // len(RUN_SECTIONS)
    if run is not None and run > runs:
        raise Refused(f"no such run: the day has {runs}")
    first = 1 + ((run or runs) - 1) * len(RUN_SECTIONS)
    return [parts[0], *parts[first : first + len(RUN_SECTIONS)]]


def rows_of(held, part):
    """The rows of a section, as lists of texts."""
    kinds = [kind_of(column) for column in columns(part.name)]
    is_plain = re.compile(",".join(PLAIN[kind] for kind in kinds) + "\n", re.ASCII).fullmatch
    held.seek(part.begin)
    for number in range(part.line + 1, part.line + 1 + part.rows):
        line = held.readline().decode("utf-8", "replace")
        cells = line[:-1].split(",") if is_plain(line) else cells_with_quotes(line, kinds)
        if cells is None:
            raise Refused(f"line {number}: is no row of [{part.name}]")
        yield cells


def cells_with_quotes(line, kinds):
    """The cells of a row, or None where it is no row of cells of these kinds."""
    try:
        cells = next(csv.reader([line], strict=True), [])
    except csv.Error:
        return None
    fits = len(cells) == len(kinds) and all(re.fullmatch(FORMS[kind], cell, re.ASCII) for kind, cell in zip(kinds, cells))
    return cells if fits else None


def dated_rows(held, part, tables):
    """The same with a date behind each week, which is empty without tables; with them, rows that agree with them."""
    rows, mondays = rows_of(held, part), tables and tables.mondays
    kinds = [kind_of(column) for column in columns(part.name)]
    says, words = WEEK_VALUES.get(part.name, (None, ()))
    says = columns(part.name).index(says) if says else None
    for number, cells in enumerate(agreeing(part, rows, tables) if tables else rows, start=part.line + 1):
        row = []
        for cell, kind in zip(cells, kinds):
            row.append(cell)
            if kind is Kind.WEEK:
                row.append(date_of(mondays, cell, number))
        if says is not None:
            row.append(date_of(mondays, cells[-1], number) if cells[says] in words else "")
        yield row


def date_of(mondays, week, number):
    if not mondays or not week:
        return ""
    if not 1 <= int(week) <= len(mondays):
        raise NotOfTheseTables(f"line {number}: week {week} is not in their {len(mondays)} weeks")
    return mondays[int(week) - 1]
