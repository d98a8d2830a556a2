"""A life of a desk under load: eight feeders write lines into its one input, and it ends by a fault, at random."""

import collections
import os
import re
import select
import shutil
import signal
import subprocess
import threading
import time
from dataclasses import dataclass

from .calls import DESKS, Caller, Wrong
from .folders import HEADER
from .messages import messages
from .processes import limit_files

FEEDERS = 8
# How a life ends.
FAULTS = {
    "kill": "SIGKILL at a random moment, also during the start",
    "cut": "the same, and then the journal is cut at random behind its last answered record, as where the machine stops",
    "term": "SIGTERM",
    "end": "the input ends",
    "pipe": "nobody reads the answers any more",
    "full": "no file gets larger than this from a random size on",
    "sync": "a sync fails, by strace",
    "order": "killed, and traced by strace",
}
TRACED = ("sync", "order")
# A life whose fault may not come ends by itself after so many lines.
MOST_LINES = 60_000
# How long a life lasts at most before its fault comes, and how long it may take to end.
MOST_SECONDS, PATIENCE = 0.6, 60


def has_strace():
    return shutil.which("strace") is not None


@dataclass
class Load:
    """What is asked of all lives: the program, the shop, the share of runs among the calls."""

    program: str
    shop: object
    runs: float = 0.002


class Life:
    """One start of a desk on a ledger's folder, and how it ends."""

    def __init__(self, load, ledger, fault, dice):
        self.load, self.ledger, self.fault, self.dice = load, ledger, fault, dice
        self.sent, self.answers, self.part = [], [], b""
        self.senders, self.waiting = [], collections.Counter()
        self.booked = collections.deque(maxlen=100)
        self.news, self.over, self.deaf, self.told = threading.Condition(), False, False, []
        self.trace = f"{ledger.path}.trace" if fault in TRACED else None

    # ---- the command

    def words(self):
        words = [self.load.program, "desk", "--dir", self.ledger.path]
        if not self.trace:
            return words
        calls = "trace=fdatasync,fsync,write,writev,pwrite64,pwritev"
        ahead = ["strace", "-f", "-qq", "-y", "-o", self.trace, "-e", "signal=none", "-e", calls]
        if self.fault == "sync":
            ahead += ["-e", f"inject=fdatasync,fsync:error=EIO:when={self.dice.randint(1, 40)}"]
        return ahead + words

    def begin(self):
        limit = len(self.ledger.journal()) + self.dice.choice((0, 7, 100, 3_000, 30_000)) + self.dice.randrange(100)
        how = {"preexec_fn": lambda: limit_files(limit)} if self.fault == "full" else {}
        pipes = {"stdin": subprocess.PIPE, "stdout": subprocess.PIPE, "stderr": subprocess.PIPE}
        self.process = subprocess.Popen(self.words(), bufsize=0, **pipes, **how)

    def kill(self):
        """Kills the desk; strace ends when what it traces does."""
        pid = self.process.pid
        if not self.trace:
            self.process.kill()
            return
        try:
            with open(f"/proc/{pid}/task/{pid}/children", encoding="ascii") as held:
                for child in held.read().split():
                    os.kill(int(child), signal.SIGKILL)
        except (FileNotFoundError, ProcessLookupError):
            pass

    # ---- its threads

    def feed(self, feeder):
        """Writes lines of some desks, of which a bounded number wait for their answers."""
        caller = Caller(self.load.shop, range(feeder + 1, DESKS + 1, FEEDERS), self.seeds[feeder], self.load.runs)
        room, to = caller.random.choice((1, 3, 30, 200)), self.process.stdin.fileno()
        while True:
            with self.news:
                while self.waiting[feeder] >= room and not self.over:
                    self.news.wait()
                if self.over or (self.fault in ("full", "sync") and len(self.sent) > MOST_LINES):
                    return
                line = caller.line(self.ledger.count + len(self.sent), self.booked)
                self.sent.append(line)
                self.senders.append(feeder)
                self.waiting[feeder] += 1
                try:
                    os.write(to, line.text)
                except OSError:
                    return

    def read(self):
        """Reads the answers, each for the feeder of its line, until there are no more or nobody is to read them."""
        at, text = self.process.stdout.fileno(), b""
        while not self.deaf:
            if not select.select([at], [], [], 0.02)[0]:
                continue
            come = os.read(at, 1 << 16)
            if not come:
                break
            *whole, text = (text + come).split(b"\n")
            with self.news:
                for line in whole:
                    self.hear(line + b"\n")
                self.news.notify_all()
        if self.deaf:
            self.process.stdout.close()
        self.part = text

    def hear(self, answer):
        if len(self.answers) < len(self.senders):
            self.waiting[self.senders[len(self.answers)]] -= 1
        self.answers.append(answer)
        if b",booked," in answer:
            number, desk = answer.split(b",")[:2]
            self.booked.append((int(number), int(desk)))

    def stop(self):
        with self.news:
            self.over = True
            self.news.notify_all()

    # ---- the whole of it

    def live(self):
        """Runs it to its end: the status, and what was said."""
        self.seeds = [self.dice.random() for _ in range(FEEDERS)]
        self.begin()
        feeders = [threading.Thread(target=self.feed, args=(feeder,)) for feeder in range(FEEDERS)]
        listener = threading.Thread(target=lambda: self.told.append(self.process.stderr.read()))
        threads = [threading.Thread(target=self.read), listener, *feeders]
        for thread in threads:
            thread.start()
        time.sleep(self.dice.random() * MOST_SECONDS)
        self.end_by_fault(feeders)
        is_late = self.wait()
        self.stop()
        for thread in threads:
            thread.join()
        self.status, self.said = self.process.returncode, self.told[0].decode()
        for stream in (self.process.stdin, self.process.stdout, self.process.stderr):
            stream.close()
        if is_late:
            raise Wrong("it does not end")

    def end_by_fault(self, feeders):
        if self.fault in ("kill", "cut", "order"):
            self.kill()
        elif self.fault == "term":
            self.process.send_signal(signal.SIGTERM)
        elif self.fault == "pipe":
            self.deaf = True
        elif self.fault == "end":
            self.stop()
            for thread in feeders:
                thread.join()
            self.process.stdin.close()

    def wait(self):
        """Waits for its end: whether it was to come, and did not."""
        try:
            self.process.wait(PATIENCE)
            return False
        except subprocess.TimeoutExpired:
            self.kill()
            self.process.wait()
            return self.fault not in ("full", "sync")

    # ---- what is looked at afterwards

    def look(self):
        """Looks at how it ended, at its trace, at the journal, at all answers and at the files of runs. How many records are new."""
        self.look_at_end()
        self.look_at_trace()
        if self.answers and self.ledger.cut_told() != [line for line in messages(self.said, True) if line.startswith("cut: ")]:
            raise Wrong(f"a cut record is told so: {self.said!r}")
        known = self.ledger.known
        new = self.ledger.account(self.sent, self.answers, self.part)
        if self.fault == "cut":
            self.cut(known)
        self.ledger.plan(self.fault == "end")
        return new

    def cut(self, known):
        """Cuts the journal at random behind the last record that was answered."""
        numbers = [int(answer.split(b",")[0]) for answer in self.answers if answer[:1].isdigit()]
        text = self.ledger.journal()
        if numbers or self.part:
            lines = text.splitlines(keepends=True)
            least = sum(map(len, lines[: 1 + max(numbers, default=0) + bool(self.part)]))
        else:
            least = len(known)
        if len(text) > max(least, len(HEADER)):
            self.ledger.cut_at(self.dice.randint(least, len(text)))

    def look_at_end(self):
        lines = [line for line in messages(self.said, True) if not line.startswith("cut: script ")]
        rest = [line for line in lines if not re.fullmatch(r"run \d+: write failed", line)]
        right = {
            "kill": self.status == -signal.SIGKILL and not lines,
            "cut": self.status == -signal.SIGKILL and not lines,
            "order": not lines,
            "term": self.status == -signal.SIGTERM and not lines,
            "end": self.status == 0 and not lines and len(self.answers) == len(self.sent),
            "pipe": self.status == 4 and rest == ["write failed"],
        }
        ends = (self.status == 4 and rest == ["write failed"]) or (self.status in (0, 137, -signal.SIGKILL) and not rest)
        if not right.get(self.fault, ends):
            raise Wrong(f"status {self.status}, {self.said!r}, {len(self.answers)} answers to {len(self.sent)} lines")
        if self.part and len(self.answers) >= len(self.sent):
            raise Wrong(f"more is written than was asked: {self.part!r}")

    def look_at_trace(self):
        if not self.trace or not os.path.exists(self.trace):
            return
        with open(self.trace, errors="replace", encoding="utf-8") as held:
            lines = list(held)
        os.remove(self.trace)
        look_at_order(lines)


def look_at_order(lines):
    """Of the lines of strace: no row is written while a record is not synced, or after a sync of the journal that failed."""
    is_waiting, has_failed, begun = False, False, set()  # begun: the threads that are in a sync of the journal
    for line in lines:
        thread, _, call = line.strip().partition(" ")
        call = call.strip()
        is_sync = re.match(r"(<\.\.\. )?f(data)?sync", call)
        if "script.csv>" in call and not is_sync:
            is_waiting = True
        elif is_sync and ("script.csv>" in call or (thread in begun and "resumed" in call)):
            begun.discard(thread)
            if "unfinished" in call:
                begun.add(thread)
            elif call.endswith("= 0"):
                is_waiting = False
            else:
                has_failed = True
        elif re.match(r"p?writev?(64)?\(1<", call):
            first = re.search(r'(, |iov_base=)"(\d?)', call)
            if has_failed or (is_waiting and first and first[2]):
                raise Wrong(f"answered before it was durable: {call[:120]}")
