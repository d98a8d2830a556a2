"""A journal on a disk that gets full, one that is cut at each byte, and one of as many records as its table takes."""

import concurrent.futures
import os
import subprocess
import tempfile
from contextlib import contextmanager

from .calls import Caller, Line, Shop, Wrong, cell
from .folders import HEADER, JOURNAL, put, tables_of
from .ledger import FULL, Ledger
from .messages import messages
from .processes import Desk
from .steps import AGAIN, SHOP, live, look_again, look_at_said

# The records that a script may have.
MOST = 100_000
DISK, BALLAST, LIMIT = 1_048_576, 262_144, 60_000


def callers_lines(shop, count, seed, runs=0.0):
    """Lines at random that become so many records."""
    caller, lines, records = Caller(shop, range(1, 65), seed, runs), [], 0
    while records < count:
        line = caller.line(records, ())
        lines.append(line)
        records += not line.fault
    return lines


@contextmanager
def small_disk(room):
    """A folder on a disk of its own that is small, or None where none can be mounted."""
    place = os.path.join(room, "disk")
    os.mkdir(place)
    mounted = subprocess.run(["mount", "-t", "tmpfs", "-o", f"size={DISK}", "tmpfs", place], capture_output=True, check=False)
    if mounted.returncode:
        yield None
        return
    try:
        yield place
    finally:
        subprocess.run(["umount", place], check=True)


def feed_until_full(program, ledger, limit=None):
    """Feeds a desk until it ends, since nothing more can be written: its lines and answers are accounted for."""
    desk, lines, place = Desk([program, "desk", "--dir", ledger.path], limit), [], 0
    more = callers_lines(Shop(tables_of(SHOP)), MOST, 5, 0.002)
    while place < len(more):
        step, place = more[place : place + 500], place + 500
        lines += step
        if not desk.send(b"".join(line.text for line in step)) or not desk.take(len(lines)):
            break
    status, out, said = desk.end()
    *answers, part = out.split(b"\n")
    rest = [line for line in messages(said.decode()) if not line.startswith("run ")]
    if (status, rest) != (4, ["write failed"]):
        raise Wrong(f"it ends with status {status} and {said!r}")
    ledger.account(lines, [answer + b"\n" for answer in answers], part)
    ledger.plan()
    return len(answers)


def fill_disk(program):
    """Fills a disk, or files up to a limit where none can be mounted; with room again the desk goes on. What was done."""
    tables = tables_of(SHOP)
    with tempfile.TemporaryDirectory(prefix="desk-disk-") as room, small_disk(room) as disk:
        ballast = os.path.join(disk or room, "ballast")
        put(ballast, b"\1" * BALLAST)
        ledger = Ledger(os.path.join(disk or room, "shop"), tables, Shop(tables), program)
        count = feed_until_full(program, ledger, None if disk else LIMIT)
        os.remove(ballast)
        look_again(program, ledger)
        return f"{count} answers until {'a disk of 1 MB' if disk else 'a limit of files'} was full; then it goes on"


# A shop whose names have to be quoted.
QUOTED = "tables-and-chairs"


def journal_to_cut(shop):
    """A journal with runs, and with names in quotes."""
    date, names = shop.start, [cell(item) for item in shop.items]
    calls = [f"{desk},book,{name},{date},1," for desk, name in enumerate(names, 1)]
    calls += ["2,run,,,,", f"3,ask,{names[0]},{date},,", "1,cancel,,,,1", f"64,when,{names[-1]},,2,", "1,run,,,,"]
    return HEADER + "".join(f"{it}\n" for it in calls).encode()


def cut_fault(program, path, shop, text):
    """What is wrong where a desk starts on this journal, if anything is."""
    line = f"5,ask,{cell(shop.items[0])},{shop.start},,\n".encode()
    try:
        ledger = Ledger(path, tables_of(QUOTED), shop, program)
        put(os.path.join(path, JOURNAL), text)
        ledger.keep(text)
        lived = live(program, path, [[Line(line, line)]])
        rest, told = look_at_said(lived, ledger)
        if (lived.status, rest, told) != (0, [], {}):
            raise Wrong(f"status {lived.status} and {lived.said!r}")
        ledger.account(lived.lines, lived.answers)
        ledger.plan(True)
    except Wrong as wrong:
        return f"cut at {len(text)}: {wrong}"
    return None


def cut_journal(program, step=1):
    """Starts a desk on a journal that is cut at each byte, or every few: how many starts, and what was wrong."""
    shop = Shop(tables_of(QUOTED))
    text = journal_to_cut(shop)
    with tempfile.TemporaryDirectory(prefix="desk-cut-") as room, concurrent.futures.ThreadPoolExecutor(os.cpu_count()) as pool:
        sizes = range(0, len(text) + 1, step)
        ends = pool.map(lambda size: cut_fault(program, os.path.join(room, str(size)), shop, text[:size]), sizes)
        return len(sizes), [end for end in ends if end]


def answer_at_once(program, ledger, lines):
    """Gives a desk these lines at once: whether it ended well, and how."""
    desk = Desk([program, "desk", "--dir", ledger.path], seconds=600)
    desk.send(b"".join(line.text for line in lines))
    status, out, said = desk.end()
    if (status, said) != (0, b""):
        raise Wrong(f"it ends with status {status} and {said[-200:]!r}")
    answers = out.splitlines(keepends=True)
    if len(answers) != len(lines):
        raise Wrong(f"{len(answers)} answers to {len(lines)} lines")
    ledger.account(lines, answers)
    return answers


def fill_journal(program):
    """Makes as many calls as a script takes, and more: these are answered `full`, at the next start too. What was done."""
    tables = tables_of(SHOP)
    shop = Shop(tables)
    with tempfile.TemporaryDirectory(prefix="desk-full-") as room:
        ledger = Ledger(os.path.join(room, "shop"), tables, shop, program)
        lines = callers_lines(shop, MOST, 3)
        answers = answer_at_once(program, ledger, [*lines, *AGAIN, *lines[:100]])
        if answers[len(lines) :] != [FULL] * 101 or FULL in answers[: len(lines)] or ledger.count != MOST:
            raise Wrong(f"{ledger.count} records, {answers.count(FULL)} of {len(answers)} answers are full")
        if answer_at_once(program, ledger, AGAIN) != [FULL]:
            raise Wrong("it is not full at the next start")
        ledger.plan(True)
        return f"{len(lines)} lines, {ledger.count} records, 102 lines answered full"
