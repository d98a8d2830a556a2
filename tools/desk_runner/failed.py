"""Each call by which a desk changes its files, failed in turn, and the order of these calls and answers."""

import concurrent.futures
import errno
import itertools
import os
import re
import tempfile
from dataclasses import dataclass

from .calls import Shop, Wrong
from .folders import JOURNAL, get, tables_of
from .preloads import build
from .steps import BEFORE, SHOP, STEPS, begin, live, look, look_again

ALL = 1_000_000_000
# How a call fails: the fault, how many fail from there on, and whether a write takes half of its bytes first.
WAYS = {
    "fails": (errno.EIO, 1, 0),
    "and all later ones fail": (errno.ENOSPC, ALL, 0),
    "takes half, and all later ones fail": (errno.ENOSPC, ALL, 1),
    "takes half": (errno.EIO, 1, 1),
    "is interrupted": (errno.EINTR, 1, 0),
}
WRITE_FAILED, WELL = (4, ["write failed"]), (0, [])


@dataclass
class Told:
    """A call that the library told of: what it is, its number, what it gave, and the file's name, or an answer's first letter."""

    what: str
    number: int
    gave: int
    name: str


def told_calls(path):
    """The calls that the library told of, in order."""
    calls = []
    for line in (get(path) or b"").decode(errors="replace").splitlines():
        what, number, gave, *rest = line.split(" ", 3)
        calls.append(Told(what, int(number), int(gave), os.path.basename("".join(rest))))
    return calls


# What a file has as its name until it is whole.
PARTS = {"run": "run.part", "desk": "desk.part"}


def look_at_names(calls):
    """A file gets its name only once all that was written of it is synced."""
    waiting = set()
    for it in calls:
        if it.name in PARTS.values():
            if it.what == "sync" and it.gave == 0:
                waiting.discard(it.name)
            elif it.what in ("make", "write"):
                waiting.add(it.name)
        if it.what == "rename" and it.gave == 0 and PARTS[re.match("[a-z]+", it.name)[0]] in waiting:
            raise Wrong(f"{it.name} gets its name before it is synced")


def look_at_calls(calls):
    """No row is written while a record is not synced, or after a write or sync of the journal that failed."""
    look_at_names(calls)
    is_waiting, has_failed = False, False
    for it in calls:
        if it.name == JOURNAL and it.what in ("write", "sync", "cut") and it.gave != -errno.EINTR:
            has_failed = has_failed or it.gave < 0
            is_waiting = it.what != "sync" or (is_waiting and it.gave < 0)
        if it.what == "answer" and it.name.isdigit() and (is_waiting or has_failed):
            raise Wrong("a row is written before its record is synced")


def look_at_start(calls, folder):
    """The journal and the folder are synced before any other file is begun, and before anything is answered."""
    start = itertools.takewhile(lambda it: it.name in (JOURNAL, folder), calls)
    if {it.name for it in start if (it.what, it.gave) == ("sync", 0)} != {JOURNAL, folder}:
        raise Wrong("a desk begins before its journal and its folder are synced")


def look_at_sum(calls, folder, before):
    """The sum of the tables has its name, and that is synced, before the first record is appended."""
    names = [at for at, it in enumerate(calls) if (it.what, it.name) == ("rename", "desk.tables")]
    appends = [at for at, it in enumerate(calls) if (it.what, it.name) == ("write", JOURNAL)][before is None :]
    if not names or not any(it.what == "sync" and it.name == folder for it in calls[names[0] : appends[0]]):
        raise Wrong("a record is appended before the sum of the tables is durable")


def look_at_batches(calls, before):
    """What comes at once is appended at once and synced once: each step that has records, and what a start finds and its header."""
    steps = sum(any(line.record for line in step) for step in STEPS)
    appends = sum((it.what, it.name) == ("write", JOURNAL) for it in calls)
    syncs = sum((it.what, it.name) == ("sync", JOURNAL) for it in calls)
    if appends > steps + (before is None) or syncs > steps + 1 + (before is None):
        raise Wrong(f"{steps} steps take {appends} appends and {syncs} syncs of the journal")


def look_at_lacking(ledger):
    """No run is told to lack memory: none was refused."""
    if ledger.lacking:
        raise Wrong(f"run {min(ledger.lacking)} is told to lack memory, where a call on files has failed")


class Failing:
    """Runs desks, of which a call on files fails."""

    def __init__(self, program, room):
        self.program, self.room, self.library = program, room, build("failing", room)
        self.shop = Shop(tables_of(SHOP))

    def run(self, name, before, **asked):
        """Runs the steps in a new folder, and looks at the order of calls: how that ended, the ledger, and the calls."""
        ledger = begin(os.path.join(self.room, name), self.program, self.shop, before)
        told = f"{ledger.path}.told"
        words = {f"FAIL_{key.upper()}": str(value) for key, value in asked.items()}
        env = {**os.environ, **words, "FAIL_FOLDER": ledger.path, "FAIL_TOLD": told, "LD_PRELOAD": self.library}
        lived = live(self.program, ledger.path, STEPS, env)
        calls = told_calls(told)
        look_at_calls(calls)
        return lived, ledger, calls

    def fault(self, name, before, way, at):
        """What is wrong where this call fails in this way, if anything is."""
        fault, many, half = WAYS[way]
        try:
            lived, ledger, calls = self.run(f"{name} {at} {way}", before, call=at, many=many, fault=fault, half=half)
            goes_on = way == "takes half" and ("write", at) in [(it.what, it.number) for it in calls]
            look(lived, ledger, [WELL] if goes_on else [WELL, WRITE_FAILED])
            look_at_lacking(ledger)
            look_again(self.program, ledger)
        except Wrong as wrong:
            return f"{name}, call {at} {way}: {wrong}"
        return None


def fail_calls(program, ways=tuple(WAYS), step=1):
    """Fails each such call in turn, or every few: how many calls there are, how many runs, and what was wrong."""
    faults, runs, calls = [], 0, 0
    with tempfile.TemporaryDirectory(prefix="desk-failing-") as room, concurrent.futures.ThreadPoolExecutor(os.cpu_count()) as pool:
        failing = Failing(program, room)
        for name, before in BEFORE.items():
            lived, ledger, made = failing.run(f"{name} free", before)
            look(lived, ledger, [WELL])
            look_at_start(made, os.path.basename(ledger.path))
            look_at_batches(made, before)
            look_at_sum(made, os.path.basename(ledger.path), before)
            count = max(it.number for it in made)
            calls += count
            tries = [(name, before, way, at) for way in ways for at in range(1, count + 1, step)]
            ends = list(pool.map(lambda it: failing.fault(*it), tries))
            faults += [it for it in ends if it]
            runs += len(tries)
    return calls, runs, faults
