"""Nights of a company that is tried, what they take, and what must stand after them."""

import contextlib
import hashlib
import json
import os
import resource
import shutil
import signal
import subprocess
import sys
import time
from dataclasses import dataclass

from company.command import own_files, program_given, sum_of
from company.company import read_company
from company.site import FILES, PLAN, Night, plan_site
from company.states import read_state, write_json

SITES = os.path.dirname(os.path.dirname(os.path.realpath(__file__)))
# A night that takes longer is stuck.
SECONDS = 3600
# How long after its start a job is in the middle of its first site.
IN_THE_MIDDLE = 0.15


def processor_seconds():
    used = resource.getrusage(resource.RUSAGE_CHILDREN)
    return used.ru_utime + used.ru_stime


@dataclass
class Ended:
    """How a night ended: its status, its last line, the seconds of the clock and of processors."""

    status: int
    said: str
    seconds: float
    processors: float


class Tried:
    """A company in a folder, and the words by which its nights are run."""

    def __init__(self, folder, words):
        self.folder, self.words = folder, words

    def command(self, *words):
        return [sys.executable, "-B", os.path.join(SITES, "night"), self.folder, *self.words, *words]

    def night(self, *words):
        began, used = time.time(), processor_seconds()
        ended = subprocess.run(self.command(*words), capture_output=True, text=True, timeout=SECONDS, check=False)
        lines = ended.stdout.strip().splitlines() or ended.stderr.strip().splitlines() or [""]
        return Ended(ended.returncode, lines[-1], time.time() - began, processor_seconds() - used)

    def start(self):
        """Starts a night, which goes on."""
        return subprocess.Popen(self.command(), stdout=subprocess.DEVNULL, stderr=subprocess.DEVNULL)

    def clear(self):
        """Takes away all that nights have left."""
        for name in ("out", "night", ".snakemake"):
            shutil.rmtree(os.path.join(self.folder, name), ignore_errors=True)

    def states(self):
        out = os.path.join(self.folder, "out")
        return {site: read_state(out, site) for site in sorted(os.listdir(os.path.join(self.folder, "sites")))}

    def planned(self):
        """How many sites are planned so far."""
        return sum(bool(state) and state.word == "planned" for state in self.states().values())

    def left(self):
        """The batches that are not planned though all that buy from their sites are."""
        buyers = {name: site.buyers() for name, site in read_company(self.folder).sites.items()}
        lost = {site for site, state in self.states().items() if not state or state.word != "planned"}
        return [batch for batch in self.batches() if lost & set(batch) and all(lost.isdisjoint(buyers[site]) for site in batch)]

    def batches(self):
        """The sites of each batch of the last night."""
        room = os.path.join(self.folder, "night")
        for name in sorted(os.listdir(room)):
            if name.endswith(".inputs"):
                with open(os.path.join(room, name), encoding="utf-8") as held:
                    yield list(json.load(held)["sites"])

    def processes(self, script):
        """The processes that work in the company's folder and run such a script."""
        for process in filter(str.isdigit, os.listdir("/proc")):
            with contextlib.suppress(OSError), open(f"/proc/{process}/cmdline", "rb") as held:
                said = held.read().split(b"\0")
                is_script = any(argument.endswith(b"/" + script.encode()) for argument in said)
                if is_script and os.path.realpath(f"/proc/{process}/cwd") == os.path.realpath(self.folder):
                    yield int(process)

    def kill_one(self, script):
        """Kills the next such process that begins, in the middle of its work."""
        old, end = set(self.processes(script)), time.time() + 60
        while time.time() < end:
            for process in set(self.processes(script)) - old:
                time.sleep(IN_THE_MIDDLE)
                with contextlib.suppress(ProcessLookupError):
                    os.kill(process, signal.SIGKILL)
                    return True
            time.sleep(0.01)
        return False

    def wait_for(self, count):
        """Waits until so many sites are planned."""
        end = time.time() + 600
        while self.planned() < count and time.time() < end:
            time.sleep(0.05)


def children_of(parent):
    """The processes that a process has started."""
    found = []
    for process in filter(str.isdigit, os.listdir("/proc")):
        with contextlib.suppress(OSError), open(f"/proc/{process}/stat", encoding="ascii", errors="replace") as held:
            if int(held.read().rpartition(")")[2].split()[1]) == parent:
                found.append(int(process))
    return found


def plan_in_turn(folder, program):
    """Plans all sites of a company one after the other, without Snakemake."""
    company = read_company(folder)
    if company.faults:
        raise ValueError(company.faults[0])
    program = program_given(program)
    night = Night(folder, program, sum_of([program, *own_files()]), 0, "in turn")
    os.makedirs(os.path.join(folder, "night"), exist_ok=True)
    write_json(os.path.join(folder, "night", "night.json"), {"name": night.name})
    for site in sorted(company.names, key=company.tier.get):
        plan_site(night, company.sites[site])


def digests(folder):
    """What tells the plan of each site, all its files; nothing of one that is not whole."""
    return {site: digest_of(os.path.join(folder, "out", site, PLAN)) for site in os.listdir(os.path.join(folder, "sites"))}


def digest_of(plan):
    if not all(os.path.exists(os.path.join(plan, name)) for name in FILES):
        return ""
    told = hashlib.sha256()
    for name in FILES:
        path = os.path.join(plan, name)
        inner = [os.path.join(path, table) for table in sorted(os.listdir(path))] if os.path.isdir(path) else [path]
        for file in inner:
            with open(file, "rb") as held:
                told.update(os.path.basename(file).encode() + hashlib.sha256(held.read()).digest())
    return told.hexdigest()


def fed_by(folder, site):
    """A site and all that it feeds through links: those that it buys from, and so on."""
    company = read_company(folder)
    found = {site}
    for name in sorted(company.names, key=company.tier.get):
        if found & set(company.sites[name].buyers()):
            found.add(name)
    return found
