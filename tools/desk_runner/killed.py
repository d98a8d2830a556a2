"""Lives of a desk that end by faults at random."""

import collections
import os
import random
import shutil
import tempfile

from .calls import Shop, Wrong
from .folders import tables_of
from .ledger import Ledger
from .lives import FAULTS, TRACED, Life, Load, has_strace

# A folder serves for so many lives, or until it has so many records.
LIVES, RECORDS = 10, 30_000


class Killing:
    """Counts what lives did."""

    def __init__(self):
        self.lives, self.answers, self.records, self.torn, self.runs, self.faults = 0, 0, 0, 0, 0, []
        self.ends = collections.Counter()

    def add(self, life, new):
        self.lives += 1
        self.answers += len(life.answers)
        self.records += new
        self.torn += life.ledger.is_torn
        self.ends[life.fault, life.status] += 1

    def told(self):
        ends = ", ".join(f"{count} by {fault} with status {status}" for (fault, status), count in sorted(self.ends.items()))
        return f"{self.lives} lives, {self.answers} answers, {self.records} records, {self.torn} journals cut inside a record; {ends}"


def faults_here(faults):
    """Of these faults those that can come on this machine."""
    return [fault for fault in faults if fault not in TRACED or has_strace()]


def kill_lives(program, count, faults=tuple(FAULTS), seed=1, shop="bicycle", keep=None):
    """Runs so many lives, which end by these faults in turn: what they did, and what was wrong."""
    dice, tables, told = random.Random(seed), tables_of(shop), Killing()
    load, ledger, faults = Load(program, Shop(tables)), None, faults_here(faults)
    with tempfile.TemporaryDirectory(prefix="desk-lives-") as room:
        for number in range(count):
            if ledger is None or number % LIVES == 0 or ledger.count > RECORDS:
                ledger = Ledger(os.path.join(room, f"shop-{number}"), tables, load.shop, program)
            life = Life(load, ledger, faults[number % len(faults)], dice)
            try:
                life.live()
                told.add(life, life.look())
            except Wrong as wrong:
                told.faults.append(f"life {number} ({life.fault}): {wrong}")
                if keep:
                    shutil.copytree(ledger.path, keep, dirs_exist_ok=True)
                ledger = None
    return told
