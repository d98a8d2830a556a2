"""The cases of `mrp carry`: folders of tables with the words of calls and how each ends, and a week that is carried."""

import json
import os
import re
import shutil
import subprocess
import tempfile
from dataclasses import dataclass

TOP = os.path.dirname(os.path.dirname(os.path.realpath(__file__)))
CASES = os.path.join(TOP, "crates", "mrp_cases", "carry")
# A call that takes longer than this is stuck.
SECONDS = 60
# The word that stands for the case's folder.
FOLDER = "D"


def lay_bytes(bundle, folder):
    """Writes the sections of a bundle to files as they are, line ends and byte order marks too."""
    os.mkdir(folder)
    table = None
    for line in re.findall(rb"[^\n]*\n|[^\n]+", bundle):
        if line.startswith(b"["):
            table = os.path.join(folder, line.strip()[1:-1].decode() + ".csv")
        with open(table, "ab") as held:
            held.write(b"" if line.startswith(b"[") else line)


def run(program, words, given=b""):
    ended = subprocess.run([program, *words], input=given, capture_output=True, timeout=SECONDS, check=False)
    return ended.returncode, ended.stdout.decode(), ended.stderr.decode()


def said_bytes(name):
    with open(os.path.join(CASES, name), "rb") as held:
        return held.read()


@dataclass
class Call:
    """A call of a case, and how it ends: the status, what is written, and on standard error if that is told."""

    case: str
    words: list
    status: int
    out: str
    error: str

    @property
    def name(self):
        return f"carry {self.case} {' '.join(self.words)}"

    def fault(self, program):
        """What is not as it must be, if anything is."""
        with tempfile.TemporaryDirectory() as room:
            folder = os.path.join(room, "shop")
            if os.path.exists(os.path.join(CASES, f"{self.case}.bundle")):
                lay_bytes(said_bytes(f"{self.case}.bundle"), folder)
            status, out, error = run(program, ["carry", *(folder if word == FOLDER else word for word in self.words)])
        if status != self.status:
            return f"status {status}, and not {self.status}"
        if out != self.out:
            return f"'{out}' is written, and not '{self.out}'"
        if self.error is not None and error != self.error:
            return f"standard error has '{error}', and not '{self.error}'"
        return None


@dataclass
class Week:
    """A planner's week: a plan, its bookings carried into the next tables, and the plan of these."""

    next_tables: str
    # What the page has of a booking that has become short: item, answer, pieces, week, desk and entry.
    short: list

    @property
    def name(self):
        return f"a week that is carried into {self.next_tables}"

    def fault(self, program):
        with tempfile.TemporaryDirectory() as room:
            return self.fault_in(program, os.path.join(room, "old"), os.path.join(room, "new"))

    def fault_in(self, program, old, new):
        lay_bytes(said_bytes("period.bundle"), old)
        lay_bytes(said_bytes(f"{self.next_tables}.next"), new)
        status, day, _ = run(program, ["plan", "--dir", old])
        if status or not day.startswith("[history]\n"):
            return f"the old tables end with status {status}"
        _, kept, _ = run(program, ["carry", "--dir", old, "--start", "2025-01-20"])
        script = os.path.join(new, "script.csv")
        with open(script, encoding="utf-8", newline="") as held:
            expected = held.read()
        if f"{kept}1,run,,,,\n" != expected:
            return f"the next script begins with '{kept}'"
        status, day, _ = run(program, ["plan", "--dir", new])
        history = said_bytes(f"{self.next_tables}.history").decode()
        if status or not day.startswith(history):
            return f"the new tables end with status {status} and '{day[:len(history)]}'"
        _, page, _ = run(program, ["page"], day.encode())
        unkept = not_promised(page)
        return None if unkept == self.short else f"{unkept} is not promised, and not {self.short}"


def not_promised(page):
    """The cells of each row of a page's section of what is not promised."""
    section = re.search(r"<h2>Not promised</h2>.*?</section>", page, re.DOTALL)
    rows = re.findall(r"<tr>(.*?)</tr>", section[0].split("</thead>")[-1], re.DOTALL) if section else []
    return [[re.sub(r"<[^>]*>", "", cell) for cell in re.findall(r"<t[hd][^>]*>(.*?)</t[hd]>", row)] for row in rows]


def calls_of(case):
    with open(os.path.join(CASES, f"{case}.carry"), encoding="utf-8", newline="") as held:
        return [Call(case, **it) for it in json.load(held)]


def carry_cases():
    """All calls of all cases, and two weeks."""
    names = sorted(name.removesuffix(".carry") for name in os.listdir(CASES) if name.endswith(".carry"))
    weeks = [Week("period-all-booked", []), Week("period-short", [["BIKE", "short: 8 available", "9", "2", "1", "2"]])]
    return [*weeks, *(call for name in names for call in calls_of(name))]
