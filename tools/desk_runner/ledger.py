"""A folder of a desk, and all that was ever answered of it: whether nothing was lost."""

import csv
import io
import os
import re
import tempfile

from .calls import Book, Wrong
from .folders import HEADER, JOURNAL, copy_tables, get, lay_tables, whole_lines
from .programs import run
from .transcripts import sections_of_day

NO_MEMORY, FULL = b"no memory\n", b"full\n"


class Ledger:
    """A folder of a shop's tables, made at `path`. After each life of a desk on it `account` compares the journal with the lines that
    came and the answers that were seen, and `plan` all answers ever seen with the program's plan."""

    def __init__(self, path, tables, shop, program):
        self.path, self.program = path, program
        lay_tables({name: text for name, text in tables.items() if name != "script"}, path)
        self.known, self.is_torn = b"", False
        self.rows, self.history, self.book = {}, b"", Book(shop)
        # the runs of which it was told that there was no memory: their files say so, or a later start has made them
        self.lacking = set()

    def journal(self):
        return get(os.path.join(self.path, JOURNAL)) or b""

    @property
    def count(self):
        """How many records stood after the last life."""
        return max(0, self.known.count(b"\n") - 1)

    def cut_told(self):
        """What the next start has to say of what it cuts away."""
        return [f"cut: script {self.count + 1 if self.known else 0}"] if self.is_torn else []

    def account(self, lines, answers, part=b"", most=100_000):
        """Compares what a life left with its lines, and with what was seen of the answers, of the last one perhaps a part. How many
        records are new."""
        number, records, last = self.count, [], 0
        if len(answers) > len(lines):
            raise Wrong(f"{len(answers)} answers to {len(lines)} lines")
        for line, answer in zip(lines, [*answers, *[None] * (len(lines) - len(answers))]):
            if answer == NO_MEMORY or answer == FULL and number >= most:
                continue
            if line.fault:
                right = b"refused: %s script %d\n" % (line.fault, number + 1)
                if answer not in (None, right):
                    raise Wrong(f"{line.text!r} is answered {answer!r}, and not {right!r}")
                continue
            number += 1
            records.append(line.record)
            if answer is not None:
                last = len(records)
                self.hear(number, line, answer)
        if part and len(answers) < len(lines) and not lines[len(answers)].fault:
            last += 1
        return self.compare(records, last)

    def hear(self, number, line, answer):
        desk, call = line.record.split(b",", 2)[:2]
        if not answer.startswith(b"%d,%s,%s," % (number, desk, call)):
            raise Wrong(f"{line.text!r} is answered {answer!r}, as entry {number}")
        self.rows[number] = answer

    def compare(self, records, last):
        """Compares the journal with the records that came, of which the first `last` were answered."""
        text = self.journal()
        whole = whole_lines(text)
        before = self.known or HEADER
        if not whole.startswith(before) and (whole or self.known):
            raise Wrong("the journal of before was changed")
        new = whole[len(before) :].splitlines(keepends=True)
        if len(new) < last:
            raise Wrong(f"LOST {last - len(new)}: {last} records were answered, and {len(new)} stand in the journal")
        if new != records[: len(new)]:
            place = next(at for at, record in enumerate(new) if records[at : at + 1] != [record])
            raise Wrong(f"record {self.count + place + 1} of the journal is {new[place]!r}, and not {records[place : place + 1]}")
        self.keep(text)
        return len(new)

    def keep(self, text):
        self.known, self.is_torn = whole_lines(text), len(whole_lines(text)) < len(text)

    def cut_at(self, place):
        """Cuts the journal, as where a machine stops before all of it is on the disk."""
        os.truncate(os.path.join(self.path, JOURNAL), place)
        self.keep(self.journal())

    def plan(self, all_made=False):
        """Compares all answers that were ever seen, and the files of runs, with the program's plan of the folder; with `all_made` each
        run of the journal must have its file."""
        if not self.known:
            return
        lines, reports = sections_of_day(self.plan_text())
        head, rows = b"".join(lines[:2]), lines[2:]
        if len(rows) not in (self.count, self.count + 1):
            raise Wrong(f"{len(rows)} entries of {self.count} records")
        rows = rows[: self.count]
        for number, row in self.rows.items():
            if rows[number - 1 : number] != [row]:
                raise Wrong(f"LOST: {row!r} is not in the history")
        self.replay(b"".join(rows))
        runs = [(number, row) for number, row in enumerate(rows, 1) if row.split(b",")[2] == b"run"]
        days = {}
        for (number, row), report in zip(runs, reports):
            days[f"run-{number}.day"] = [head + row + text for text in ([report, NO_MEMORY] if number in self.lacking else [report])]
        self.compare_days(days, all_made)

    def plan_text(self):
        with tempfile.TemporaryDirectory() as room:
            copy = os.path.join(room, "shop")
            copy_tables(self.path, self.known, copy)
            status, plan, said = run(self.program, ["plan", "--dir", copy])
            if status:
                raise Wrong(f"the folder has no plan: {said}")
            _, verdict, said = run(self.program, ["check", "--dir", copy], plan)
            if verdict != b"right\n":
                raise Wrong(f"the plan is {verdict} {said}")
        return plan

    def replay(self, history):
        if not history.startswith(self.history):
            raise Wrong("the history of before is another one")
        for row in csv.reader(io.StringIO(history[len(self.history) :].decode())):
            self.book.take(row)
        self.history = history

    def compare_days(self, days, all_made):
        found = {name for name in os.listdir(self.path) if re.fullmatch(r"run-\d+\.day", name)}
        if not found <= set(days):
            raise Wrong(f"{min(found - set(days))} is of no run")
        if all_made and found != set(days):
            raise Wrong(f"{min(set(days) - found)} is not there")
        for name in found:
            if get(os.path.join(self.path, name)) not in days[name]:
                raise Wrong(f"{name} is not the report of its run")
