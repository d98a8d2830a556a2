"""The worked days of mrp_cases at a desk: the calls of a day are made one a line, and a bundle that is refused refuses the start."""

import os
import re
import tempfile
from dataclasses import dataclass

from .folders import JOURNAL, TOP, get, lay_tables, put, sections_of
from .processes import Desk, Stuck
from .transcripts import Ended, sections_of_day, short

DAYS = os.path.join(TOP, "crates", "mrp_cases", "data")
TABLES = {"calendar", "items", "centres", "stock", "receipts", "bills", "routings", "master", "script"}


def end_of(program, folder, given, workers=1):
    """How a desk ends that gets this input at once, or None where it is stuck."""
    desk = Desk([program, "desk", "--dir", folder, "--workers", str(workers)])
    try:
        desk.send(given)
        return Ended(*desk.end())
    except Stuck:
        desk.kill()
        return None


@dataclass
class Replay:
    """The calls of a worked day, made at a desk: each is answered by its row of the history, and the file of each run of theirs has
    that row and the day's report, whether it is planned by one worker, two or three."""

    name: str
    tables: dict
    calls: bytes
    day: bytes

    def fault(self, program):
        """What is not as it must be, if anything is."""
        lines, reports = sections_of_day(self.day)
        rows = lines[2:][: self.calls.count(b"\n")]
        fronts = [row for row in rows if row.split(b",")[2] == b"run"]
        with tempfile.TemporaryDirectory() as room:
            folder = os.path.join(room, "shop")
            lay_tables(self.tables, folder)
            ended = end_of(program, folder, self.calls, 1 + len(self.calls) % 3)
            if ended != Ended(0, b"".join(rows), b""):
                return f"it ends with {short(ended)}, and not with {short(b''.join(rows))}"
            for row, report in zip(fronts, reports):
                name = f"run-{row.split(b',')[0].decode()}.day"
                found = get(os.path.join(folder, name))
                if found != b"".join(lines[:2]) + row + report:
                    return f"{name} is {short(found)}"
        return None


@dataclass
class Refusal:
    """A refused bundle in a folder: a desk does not start there, says why as a plan does, and leaves the journal as it is."""

    name: str
    tables: dict
    said: bytes

    def fault(self, program):
        with tempfile.TemporaryDirectory() as room:
            folder = os.path.join(room, "shop")
            lay_tables(self.tables, folder)
            ended = end_of(program, folder, b"1,run,,,,\n")
            files = {f"{name}.csv" for name in self.tables}
            if ended != Ended(1, b"", self.said):
                return f"it ends with {short(ended)}, and not with {self.said!r}"
            if set(os.listdir(folder)) != files or get(os.path.join(folder, JOURNAL)) != self.tables.get("script"):
                return f"it changes the folder: {sorted(os.listdir(folder))}"
        return None


SECTION = re.compile(rb"\[[a-z]+\]")


def is_plain(bundle):
    """Whether the sections of a bundle are each once there, one after the other, in lines that end in line feeds."""
    names = [line for line in bundle.split(b"\n") if line.startswith(b"[")]
    is_text = bundle.startswith(b"[") and b"\r" not in bundle and bundle.endswith(b"\n")
    return is_text and len(set(names)) == len(names) and all(map(SECTION.fullmatch, names))


def replay_of(name, tables, day):
    """The replay of a day, or None where its script is not spelled one record a line."""
    head, _, calls = tables["script"].partition(b"\n")
    count = len(sections_of_day(day)[0]) - 2
    if b'"' in calls or b"\n\n" in b"\n" + calls or not head.endswith(b"number") or calls.count(b"\n") not in (count - 1, count):
        return None
    return Replay(f"worked day {name}", {key: text for key, text in tables.items() if key != "script"}, calls, day)


def replays():
    """All worked days that can be made at a desk, and all refused bundles that can be a folder."""
    for file in sorted(os.listdir(DAYS)):
        name, end = os.path.splitext(file)
        bundle = get(os.path.join(DAYS, f"{name}.bundle")) if end in (".day", ".said") else None
        if bundle is None or not is_plain(bundle) or not TABLES.issuperset(tables := sections_of(bundle)):
            continue
        text = get(os.path.join(DAYS, file))
        if end == ".said":
            # (a desk begins a journal that is missing or empty, and plans no run at its start)
            if tables.get("script", b"").strip() and not text.startswith(b"too large"):
                yield Refusal(f"refused bundle {name}", tables, text)
        elif found := replay_of(name, tables, text):
            yield found
