"""The transcripts of desks (crates/mrp_cases/desk): each run by a program, and held beside its plan of the folder afterwards."""

import glob
import json
import os
import re
import signal
import tempfile
from dataclasses import dataclass

from .folders import HEADER, JOURNAL, TOP, get, lay_tables, put, tables_of, whole_lines
from .processes import Desk, Stuck
from .programs import run

CASES = os.path.join(TOP, "crates", "mrp_cases", "desk")
SIGNALS = ("TERM", "INT", "KILL")
GIVEN = {"about", "shop", "tables", "before", "words", "in", "chunks", "limit", "end", "shut", "beside", "mrp", "then"}
KEYS = GIVEN | {"out", "err", "status", "after", "files"}


def text_of(value):
    """A text of a transcript: characters for bytes, or a list of its parts, of which [TEXT, N] is TEXT N times."""
    if isinstance(value, str):
        return value.encode("latin-1")
    return b"".join(text_of(part) if isinstance(part, str) else text_of(part[0]) * part[1] for part in value)


def short(value):
    text = repr(value)
    return text if len(text) < 2_000 else f"{text[:1_000]} .. {text[-1_000:]}"


def lay(folder, name, value):
    """Puts a file of a transcript into the folder, or a folder, or takes away what is there."""
    path = os.path.join(folder, name)
    if value is None or isinstance(value, dict):
        if os.path.isfile(path):
            os.remove(path)
        if value is not None:
            os.mkdir(path)
    else:
        put(path, text_of(value))


@dataclass
class Ended:
    """How a life of a desk ended."""

    status: int
    out: bytes
    said: bytes


def feed(desk, life):
    """Sends a life's input: all at once, or in chunks, each once the lines before it are answered."""
    end, lines = life.get("end", "input"), 0
    chunks = [text_of(chunk) for chunk in life.get("chunks", [life.get("in", "")])]
    for chunk in chunks:
        desk.send(chunk)
        lines += chunk.count(b"\n")
        if (len(chunks) > 1 or end in SIGNALS) and not desk.take(lines):
            break
    if end in SIGNALS:
        desk.signal(getattr(signal, f"SIG{end}"))


def open_beside(program, folder):
    """Another desk on the folder, which has answered a line that is no call."""
    desk = Desk([program, "desk", "--dir", folder])
    desk.send(b"x\n")
    desk.take(1)
    return desk


def live(program, life, folder):
    """Runs one life of a desk: how it ended, or None where it was stuck."""
    words = [word.replace("{D}", folder) for word in life.get("words", ["--dir", "{D}"])]
    other = open_beside(program, folder) if life.get("beside") else None
    shut = life.get("shut", ())
    desk = Desk([program, "desk", *words], life.get("limit"), life.get("end") == "closed" or 1 in shut, shut=shut)
    try:
        feed(desk, life)
        return Ended(*desk.end())
    except Stuck:
        desk.kill()
        return None
    finally:
        if other:
            other.end()


def faults_of_end(life, ended):
    """What of the streams and the status is not as the transcript has it."""
    wanted = [("standard output", ended.out, text_of(life.get("out", ""))), ("the status", ended.status, life.get("status", 0))]
    if life.get("err", "") is not None:
        wanted.append(("standard error", ended.said, text_of(life.get("err", ""))))
    return [f"{what} is {short(found)}, and not {short(right)}" for what, found, right in wanted if found != right]


def faults_of_files(life, folder, old):
    """What of the folder's files is not as the transcript has it; `old` are those of before."""
    files = dict(life.get("files", {}))
    if "after" in life:
        files[JOURNAL] = life["after"]
    for name, value in files.items():
        found = get(os.path.join(folder, name))
        if value is True:
            if found is None:
                yield f"{name} is not there"
            elif old.get(name, found) != found:
                yield f"{name} has become {short(found)}, and was {short(old[name])}"
        elif found != (None if value is None else text_of(value)):
            yield f"{name} is {short(found)}, and not {short(None if value is None else text_of(value))}"


def sections_of_day(day):
    """The head and history of a day, as lines, and its reports."""
    history, *reports = re.split(rb"(?m)^(?=\[run\]\n)", day)
    return history.splitlines(keepends=True), reports


def faults_of_run(program, name, day, rows, reports):
    """What of a run's file the plan of the folder does not say."""
    if b"[run]\n" not in day:
        return
    head, mine = sections_of_day(day)
    if mine[0] not in reports:
        yield f"{name} is no report of the plan"
    if head[2:] != [rows[int(re.search(r"run-(\d+)\.day$", name)[1]) - 1]]:
        yield f"{name} has another row in its history"
    status, _, said = run(program, ["page"], day)
    if status:
        yield f"{name} has no page: {said}"


def faults_beside_plan(program, folder, out):
    """What of the answers and of the runs' files is not as the program plans the folder."""
    path = os.path.join(folder, JOURNAL)
    journal = get(path)
    if journal is None:
        return
    put(path, whole_lines(journal))
    status, plan, said = run(program, ["plan", "--dir", folder])
    put(path, journal)
    if status:
        yield f"the folder has no plan: {said}"
        return
    lines, reports = sections_of_day(plan)
    rows = lines[2:]
    for line in out.splitlines(keepends=True):
        if line[:1].isdigit() and line.endswith(b"\n"):
            number = int(line.split(b",")[0])
            if rows[number - 1 : number] != [line]:
                yield f"{line!r} is not in the history of the plan"
    for name in sorted(glob.glob("run-*.day", root_dir=folder)):
        day = get(os.path.join(folder, name))
        if day is not None:
            yield from faults_of_run(program, name, day, rows, reports)


def is_planned(life):
    """Whether the folder has a plan after a life."""
    return life.get("mrp", True) and life.get("status", 0) not in (1, 2)


def faults_of_life(program, life, folder):
    """Lays a life's files into the folder, runs it, and finds what is not as it must be."""
    for name, value in life.get("tables", {}).items():
        lay(folder, name, value)
    if "before" in life:
        lay(folder, JOURNAL, life["before"])
    old = {name: get(os.path.join(folder, name)) for name in os.listdir(folder)}
    ended = live(program, life, folder)
    if not ended:
        return ["it did not answer, or end, in time"]
    faults = [*faults_of_end(life, ended), *faults_of_files(life, folder, old)]
    return [*faults, *faults_beside_plan(program, folder, ended.out)] if is_planned(life) else faults


@dataclass
class Transcript:
    """A transcript by its name: lives of a desk on one folder, one after the other."""

    name: str

    def read(self):
        with open(os.path.join(CASES, f"{self.name}.desk"), encoding="ascii") as held:
            return json.load(held)

    def fault(self, program):
        """What is not as it must be, if anything is."""
        case = self.read()
        with tempfile.TemporaryDirectory() as room:
            folder = os.path.join(room, "shop")
            lay_tables(tables_of(case["shop"]), folder)
            for place, life in enumerate([case, *case.get("then", [])]):
                faults = faults_of_life(program, life, folder)
                if faults:
                    return (f"start {place + 1}: " if "then" in case else "") + "\n  ".join(faults)
        return None


def transcripts():
    return [Transcript(name.removesuffix(".desk")) for name in sorted(os.listdir(CASES)) if name.endswith(".desk")]
