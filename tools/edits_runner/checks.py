"""Checks: copies of crates are laid into a folder with a round's texts, and the prover is run on them, as memory allows."""

import json
import os
import re
import shutil
import signal
import subprocess
import tempfile
import threading
import time
from contextlib import contextmanager
from dataclasses import dataclass, field

from . import toolchain
from .copies import lay_proof, leave_open

# Room for a check (docs/GATE.md), and for what those that run may still take.
MEMORY_OF_A_CHECK = 6_000_000_000
# Seconds in which a check takes much of its memory.
SETTLES = 20
# What a check says of each function as it ends with it.
CHECKED = re.compile(r"checked (\S+), \d+ of \d+$")


@dataclass
class Cost:
    """What the checks of a crate took: how many there were, seconds of processors, and how long each function took by the clock."""

    checks: int = 0
    seconds: float = 0
    functions: dict = field(default_factory=dict)

    def longest(self):
        """The functions that took the longest over all checks, where a check has one process: else their times overlap."""
        slow = sorted(self.functions.items(), key=lambda it: -it[1])[:5]
        return ", ".join(f"{name.partition('::')[2] or name} {seconds:.0f} s" for name, seconds in slow)


class Checks:
    """How many checks are under way, of so many processes each, in which folder what they say is kept, and what they took."""

    def __init__(self):
        self.jobs, self.saved, self.running, self.began, self.lock = 1, None, 0, 0.0, threading.Lock()
        self.costs = {}

    def cost_of(self, crate):
        with self.lock:
            return self.costs.setdefault(crate.name, Cost())

    @contextmanager
    def room(self):
        """Room for a check: waits for memory while another is under way, and until the one that began last has taken its own."""
        while True:
            with self.lock:
                has_settled = time.time() - self.began >= SETTLES
                if not self.running or has_settled and toolchain.free_memory() >= MEMORY_OF_A_CHECK:
                    self.running, self.began = self.running + 1, time.time()
                    break
            time.sleep(2)
        try:
            yield
        finally:
            with self.lock:
                self.running -= 1

    def share_out(self, crates, times, used):
        """Adds what a check took to the costs of its crates, by how long their functions took."""
        times_of = {crate: {name: it for name, it in times.items() if name.startswith(f"{crate.name}::")} for crate in crates}
        total = sum(sum(it.values()) for it in times_of.values())
        for crate, own in times_of.items():
            cost = self.cost_of(crate)
            cost.checks += 1
            cost.seconds += used * (sum(own.values()) / total if total else 1 / len(times_of))
            for name, seconds in own.items():
                cost.functions[name] = cost.functions.get(name, 0) + seconds


CHECKS = Checks()


def check(rounds, functions=(), kept=None):
    """Checks copies of these crates with a round's texts in place of their own: these functions, or without any a whole crate.
    What it says, and its status; once more where it is killed, most likely for memory."""
    ran = check_once(rounds, functions, kept)
    return check_once(rounds, functions, kept) if ran.returncode == -signal.SIGKILL else ran


def check_once(rounds, functions, kept):
    crate, tried = next(iter(rounds.items()))
    with CHECKS.room(), tempfile.TemporaryDirectory(prefix="edits-") as room:
        for it, laid in rounds.items():
            lay_round(f"{room}/{it.name}", it, laid)
        if tried.is_emptied:
            folder, words, only = f"{room}/nothing", words_over([*rounds], room), sorted(functions)
        else:
            folder, words = f"{room}/{crate.name}", crate.words(["--jobs", str(CHECKS.jobs)], keeps=False)
            only = sorted(it.partition("::")[2] for it in functions)
        words += [word for name in only for word in ("--only", name)]
        words += ["--allow-holes"] if tried.is_emptied else ["--incremental", kept] if kept else []
        ran, times = run_check(words, folder, rounds)
        ran.stdout = ran.stdout.replace(f"{room}/", "")
        if CHECKS.saved:
            save(f"{CHECKS.saved}/{crate.name}-{os.path.basename(room)}.txt", ran.stdout, times)
        return ran


def run_check(words, folder, crates):
    """What a check of these crates in this folder ends with and says, and how long each function took: but the first, behind
    which is all that a check loads."""
    said, times, last = [], {}, None
    how = {"stdin": subprocess.DEVNULL, "stdout": subprocess.PIPE, "stderr": subprocess.STDOUT, "errors": "replace"}
    with subprocess.Popen([*toolchain.checker(), *words, "--progress"], cwd=folder, text=True, **how) as asked:
        for line in asked.stdout:
            checked, now = CHECKED.match(line), time.time()
            if checked:
                times[checked[1]], last = now - (last or now), now
            said.append(line)
        _, status, used = os.wait4(asked.pid, 0)
        asked.returncode = os.waitstatus_to_exitcode(status)
    CHECKS.share_out(crates, times, used.ru_utime + used.ru_stime)
    return subprocess.CompletedProcess(words, asked.returncode, "".join(said)), times


def save(path, said, times):
    with open(path, "w", encoding="utf-8") as out:
        out.writelines(f"{seconds:.1f} s {name}\n" for name, seconds in times.items())
        out.write(said)


# ---- what a check is of

def lay_round(folder, crate, tried):
    """Lays a crate into a folder, with a round's texts in place of its own, its copies' proofs, and the proofs that are left open."""
    for part in toolchain.parts_of_a_crate():
        if os.path.isdir(f"{crate.folder}/{part}"):
            shutil.copytree(f"{crate.folder}/{part}", f"{folder}/{part}")
    for file, text in tried.texts.items():
        with open(f"{folder}/{file}", "w", encoding="utf-8") as out:
            out.write(text)
    for copy in tried.copies:
        lay_proof(folder, copy)
    for path in tried.empty:
        leave_open(folder, crate, path)


def words_over(crates, room):
    """The words of a check of a crate with nothing in it, over these libraries in source, which lie in a room, as it does."""
    os.makedirs(f"{room}/nothing/src")
    with open(f"{room}/nothing/src/lib.rt", "w", encoding="utf-8") as out:
        out.write("//! Nothing: what is checked are the libraries below.\n#![tactic(auto)]\n")
    kit = toolchain.folder()
    below = dict.fromkeys(it for crate in crates for it in crate.below() if it not in crates)
    words = ["--crate-name", "nothing", "src/lib.rt", "-L", f"dependency={kit}/rlibs"]
    for name in dict.fromkeys(name for crate in crates for name in crate.of_kit):
        words += ["--extern", f"{name}={kit}/rlibs/{name}.rlib"]
    for it in below:
        words += ["--extern", f"{it.name}={it.rlib}", "-L", f"dependency={os.path.dirname(it.rlib)}"]
    for crate in crates:
        used = ",".join(dict.fromkeys([*crate.of_kit, *(it.name for it in crate.deps)]))
        root = "main" if crate.is_program else "lib"
        words += ["--lib", f"{crate.name}:{used}={room}/{crate.name}/src/{root}.rt"]
    words += ["--antt-project", f"{kit}/rattle/logic/antt-project.json", "--logic-built", f"{kit}/logic_built"]
    return [*words, "--jobs", str(CHECKS.jobs)]


def take_what_is_proved(crate, kept):
    """Lays the proofs of the crate's library, if it has them, into this folder in the form in which a check keeps them.

    What `rt ci` builds has statements alone, and no stamp."""
    if crate.is_program or not crate.is_built():
        return
    try:
        with open(f"{crate.rlib}/toolchain/checked.json", encoding="utf-8") as listed:
            modules = [json.loads(line) for line in listed]
        with open(f"{crate.rlib}/toolchain/checked.a", "rb") as held:
            for name, begin, length in modules:
                held.seek(begin)
                module = held.read(length)
                kernel = re.search(rb"(?m)^--@ kernel (\S+)$", module)[1].decode()
                room = f"{kept}/{kernel.replace('/', '_')}"
                os.makedirs(room, exist_ok=True)
                with open(f"{room}/{name}.oantt", "wb") as out:
                    out.write(module)
    except (OSError, ValueError, TypeError):
        pass  # (without it the first check takes longer)
