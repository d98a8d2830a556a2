"""Each growth of memory refused in turn to a desk, and threads."""

import concurrent.futures
import os
import tempfile

from .calls import Shop, Wrong
from .folders import get, put, tables_of
from .preloads import build
from .steps import BEFORE, SHOP, STEPS, begin, live, look, look_again

ALL = 1_000_000_000
# How a desk ends to which memory is refused: well, with answers or runs that say so; or at its start or at a batch. Where a file's path
# finds no memory, its write has failed.
ENDINGS = [(0, []), (3, ["no memory"]), (4, ["write failed"])]


class Refusing:
    """Runs desks, to which growths or threads are refused (tools/refusing.c)."""

    def __init__(self, program, room):
        self.program, self.room, self.library = program, room, build("refusing", room)
        self.shop = Shop(tables_of(SHOP))

    def run(self, name, before, **asked):
        """Runs the steps in a new folder: how that ended, the ledger, how many growths there were, and how many threads."""
        ledger = begin(os.path.join(self.room, name), self.program, self.shop, before)
        told = f"{ledger.path}.told"
        put(told, b"")
        words = {f"REFUSE_{key.upper()}": str(value) for key, value in asked.items()}
        lived = live(self.program, ledger.path, STEPS, {**os.environ, **words, "REFUSE_TOLD": told, "LD_PRELOAD": self.library})
        counts = list(map(int, get(told).split())) or [0] * 5
        return lived, ledger, counts[0], counts[3]

    def fault(self, name, before, asked):
        """Whether a desk to which this is refused lacked memory, and what is wrong, if anything is."""
        what = ", ".join(f"{key} {value}" for key, value in asked.items())
        try:
            lived, ledger, _, _ = self.run(f"{name} {what}", before, **asked)
            look(lived, ledger, ENDINGS)
            look_again(self.program, ledger)
        except Wrong as wrong:
            return False, f"{name}, {what}: {wrong}"
        return lived.status == 3 or b"no memory\n" in lived.answers or "no memory" in lived.said, None


def refusals(growths, threads, step):
    """What is refused in turn: growths alone and with all later ones, then threads."""
    for growth in range(1, growths + 1, step):
        yield {"growth": growth, "many": 1}
        yield {"growth": growth, "many": ALL}
    if threads:
        yield {"thread": 1, "each": 1}
    for thread in range(1, threads + 1):
        yield {"thread": thread, "each": 0}


def refuse_growths(program, step=1):
    """Refuses each growth in turn, or every few: how many there are, how many runs, how many lacked memory, and what was wrong."""
    faults, runs, counted, lacked = [], 0, 0, 0
    with tempfile.TemporaryDirectory(prefix="desk-growths-") as room, concurrent.futures.ThreadPoolExecutor(os.cpu_count()) as pool:
        refusing = Refusing(program, room)
        for name, before in BEFORE.items():
            lived, ledger, growths, threads = refusing.run(f"{name} free", before)
            look(lived, ledger, ENDINGS[:1])
            ends = list(pool.map(lambda it, name=name, before=before: refusing.fault(name, before, it), refusals(growths, threads, step)))
            faults += [fault for _, fault in ends if fault]
            lacked += sum(is_out for is_out, _ in ends)
            runs += len(ends)
            counted += growths
    if not lacked:
        faults.append("no run lacked memory")
    return counted, runs, lacked, faults
