"""The command line of `tools/prove`."""

import argparse
import os
import re
import shutil
import signal
import subprocess
import sys
import threading
import time

from edits_runner import toolchain

from . import __doc__ as PACKAGE
from .crates import PROGRAM, listed, standing_under, weight, why_stale
from .schedule import MOST_JOBS, Plan, rate_seen, seconds_left, told

TOP = os.path.dirname(os.path.dirname(os.path.dirname(os.path.realpath(__file__))))
BUILT = os.path.join(TOP, "bin", PROGRAM)
# The toolchain's script, as tools/edits_runner/toolchain.py loads it, in a process of its own.
AS_A_MODULE = [sys.executable, "-B", "-c", "import sys; from edits_runner import toolchain; sys.exit(toolchain.script().main(sys.argv[1:]))"]
# What the proof of a crate may take of the memory, and what each process of several takes.
MEMORY_OF_A_PROOF, MEMORY_OF_A_PROCESS = 4_500_000_000, 3_000_000_000


class NotProved(Exception):
    """A crate is not proved: its name."""


def words_given(words):
    """What the words of the command line ask for. Ends with status 2 at one that it does not know, and with 0 for help."""
    how = {"usage": argparse.SUPPRESS, "formatter_class": argparse.RawDescriptionHelpFormatter, "allow_abbrev": False}
    known = argparse.ArgumentParser(prog="tools/prove", description=PACKAGE, **how)
    known.add_argument("--lanes", type=int, help=argparse.SUPPRESS)
    known.add_argument("--stale", action="store_true", help=argparse.SUPPRESS)
    given = known.parse_args(words)
    if given.lanes is not None and given.lanes < 1:
        known.error(f"{given.lanes} is no number of processes")
    return given


def say(line):
    print(line, file=sys.stderr, flush=True)


def log_of(name):
    """Where it stands what the prover says of a crate."""
    os.makedirs(f"{TOP}/crates/{name}/out", exist_ok=True)
    return f"{TOP}/crates/{name}/out/prove.log"


class Libraries:
    """The libraries below the program, as the toolchain's script builds them."""

    def __init__(self):
        script = toolchain.script()
        self.script = script.rtlib
        # (so that a library that was proved in another checkout on this machine is not proved again; some versions keep nothing)
        if hasattr(script, "share_work"):
            script.share_work(True)
        program = next(it for it in toolchain.crates_below(TOP) if it.name == PROGRAM)
        self.crates = {it.name: it for it in program.below()}
        self.held = []

    def lock(self):
        """Waits until no other command of the toolchain is at work in these crates, and keeps others out."""
        for crate in self.crates.values():
            self.script.stop_on_links(crate.folder)
        self.held = self.script.lock([*self.crates.values()])

    def unlock(self):
        for held in self.held:
            os.close(held)

    def is_built(self, name):
        return name in self.crates and self.crates[name].is_built()

    def build(self, name, jobs):
        """Proves and builds a library, and returns whether it could."""
        crate = self.crates[name]
        with open(log_of(name), "w", encoding="utf-8") as crate.out:
            return crate.build_rlib(["--jobs", str(jobs)], anew=False) == 0


def build_program(jobs, rt):
    """Proves and builds the program over its libraries, which are built, and returns whether it could. `rt` is the command by which
    the toolchain is called."""
    how = {"cwd": f"{TOP}/crates/{PROGRAM}", "stdin": subprocess.DEVNULL, "stderr": subprocess.STDOUT, "check": False}
    how["env"] = {**os.environ, "PYTHONPATH": f"{TOP}/tools"}
    # (the toolchain builds a program to run it, and this ends at once)
    with open(log_of(PROGRAM), "w", encoding="utf-8") as log:
        return subprocess.run([*rt, "run", "--jobs", str(jobs), "--", "--version"], stdout=log, **how).returncode == 0


def give_way():
    """Has this thread, and the processes that it starts, run where no other would."""
    if hasattr(os, "SCHED_IDLE"):
        os.sched_setscheduler(0, os.SCHED_IDLE, os.sched_param(0))


class Proving:
    """The proofs, with what they took."""

    def __init__(self, plan, build):
        self.plan, self.build, self.proved, self.failed = plan, build, [], None
        self.begun, self.changed = {}, threading.Condition()

    def say(self):
        now = time.time()
        spent = {name: now - begun for name, begun in self.begun.items()}
        seconds = seconds_left(self.plan, spent, rate_seen(self.proved))
        say(told(len(self.plan.done), len(self.plan.below), seconds))

    def prove(self, name, jobs, is_urgent):
        is_well = False
        try:
            if not is_urgent:
                give_way()
            is_well = self.build(name, jobs)
        finally:
            with self.changed:
                self.proved.append((self.plan.weights[name], time.time() - self.begun.pop(name), jobs))
                self.plan.end(name)
                self.failed = self.failed or (None if is_well else name)
                self.changed.notify()

    def run(self):
        """Proves all, and raises NotProved where that ends without it."""
        with self.changed:
            while len(self.plan.done) < len(self.plan.below) and not self.failed:
                for name, jobs in self.plan.start().items():
                    self.begun[name] = time.time()
                    urgent = self.plan.is_urgent(name)
                    threading.Thread(target=self.prove, args=(name, jobs, urgent), daemon=True).start()
                self.say()
                self.changed.wait(60)
            if self.failed:
                raise NotProved(self.failed)


def plan_of(top, lanes):
    """All that is to be proved, by so many processes for one crate, or by as many as there are processors and as memory holds."""
    crates, free = listed(top), toolchain.free_memory()
    names = standing_under(crates, PROGRAM)
    below, weights = {name: crates[name] for name in names}, {name: weight(top, name) for name in names}
    if lanes:
        return Plan(below, weights, lanes)
    lanes = max(1, min(toolchain.processors(), free // MEMORY_OF_A_PROOF))
    return Plan(below, weights, lanes, room=min(2 * lanes, free // MEMORY_OF_A_PROCESS))


def prove_in_parallel(lanes):
    """Proves and builds the program and all that it stands on. Raises NotProved, and OtherToolchain."""
    libraries = Libraries()
    libraries.lock()
    plan = plan_of(TOP, lanes)
    plan.done = {name for name in plan.below if libraries.is_built(name)}

    def build(name, jobs):
        if name != PROGRAM:
            return libraries.build(name, jobs)
        libraries.unlock()
        # (with more processes they load all libraries first, and then the one that builds does)
        return build_program(1, AS_A_MODULE)

    Proving(plan, build).run()


def prove_in_turn(lanes):
    """The same by the toolchain's own command, which proves one crate after the other."""
    if not build_program(min(lanes or MOST_JOBS, MOST_JOBS), ["rt"]):
        raise NotProved(PROGRAM)


def put_in_place(begun):
    """Puts the built program where it is run from, as old as the texts that it was built from."""
    os.makedirs(os.path.dirname(BUILT), exist_ok=True)
    shutil.copyfile(f"{TOP}/crates/{PROGRAM}/out/{PROGRAM}", f"{BUILT}.new")
    os.chmod(f"{BUILT}.new", 0o755)
    os.utime(f"{BUILT}.new", (begun, begun))
    os.replace(f"{BUILT}.new", BUILT)


def main(words):
    given = words_given(words)
    if given.stale:
        why = why_stale(TOP, BUILT)
        if why:
            print(why)
        return 0
    if not shutil.which("rt"):
        say("prove: the toolchain's command `rt` is not in the path")
        return 2
    # (what was started ends with this process)
    signal.signal(signal.SIGINT, signal.SIG_DFL)
    begun = time.time()
    try:
        try:
            prove_in_parallel(given.lanes)
        except toolchain.OtherToolchain as other:
            say(f"prove: {other}. So one crate is proved after the other.")
            prove_in_turn(given.lanes)
    except NotProved as failed:
        with open(log_of(failed), encoding="utf-8", errors="replace") as log:
            told_last = [line for line in log.read().splitlines() if not re.search(r": (proved|no holes)$", line)]
        say("\n".join([*told_last[-40:], f"prove: {failed} is not proved: crates/{failed}/out/prove.log has all that was said of it"]))
        return 1
    put_in_place(begun)
    return 0
