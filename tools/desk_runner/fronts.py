"""Connections in front of a desk (tools/desks), and programs beside one."""

import asyncio
import os
import random
import signal
import subprocess
import sys
import tempfile
import time

from .calls import Shop, Wrong
from .folders import HEADER, JOURNAL, TOP, get, put, tables_of
from .ledger import Ledger
from .processes import SECONDS, Desk
from .programs import run

SHOP = "bicycle"
# The lines of a connection that wait for their answers at a time.
WINDOW = 4
NO_CALLS = ("x", "sell,,,,", "", "run,,,,\r9,run,,,,")


def line_of(place, dice):
    """A line of a connection's desk, without its number."""
    kind = dice.random()
    if kind < 0.5:
        return f"book,BIKE,2025-0{dice.choice(('1-13', '1-20', '2-10'))},{dice.randint(1, 3)},"
    if kind < 0.7:
        return "ask,BIKE,2025-01-20,,"
    if kind < 0.8:
        return f"when,BIKE,,{dice.randint(1, 9)},"
    return f"cancel,,,,{dice.randint(1, 64 * (place + 1))}" if kind < 0.95 else dice.choice(NO_CALLS)


def heard(desk, line, answer):
    """The number and the record of a line of this desk, or None where it was refused; it has to be its own answer."""
    if answer.startswith("refused: "):
        if line not in NO_CALLS:
            raise Wrong(f"{line!r} is answered {answer!r}")
        return None
    cells = answer.rstrip("\n").split(",")
    call = line.split(",")[0]
    if len(cells) != 9 or cells[1:3] != [str(desk), call] or (call == "cancel" and cells[6] != line.split(",")[4]):
        raise Wrong(f"{line!r} of desk {desk} is answered {answer!r}")
    return int(cells[0]), f"{desk},{line}\n".encode(), answer.encode()


async def connect(sockets, desk, calls):
    """Makes calls at the socket of a desk, a few at a time: what was answered."""
    reader, writer = await asyncio.open_unix_connection(os.path.join(sockets, str(desk)))
    dice, waiting, found = random.Random(desk), [], []
    for place in range(calls + WINDOW):
        if place < calls:
            waiting.append(line_of(place, dice))
            writer.write(waiting[-1].encode() + b"\n")
        if place >= min(WINDOW, calls) and waiting:
            answer = (await asyncio.wait_for(reader.readline(), SECONDS)).decode()
            found.append(heard(desk, waiting.pop(0), answer))
    writer.close()
    return [it for it in found if it]


async def connect_all(sockets, calls):
    together = await asyncio.gather(*(connect(sockets, desk, calls) for desk in range(1, 65)))
    return sorted(it for found in together for it in found)


def begin_front(program, folder, sockets):
    """Starts tools/desks, and waits until its last socket is there."""
    words = [sys.executable, os.path.join(TOP, "tools", "desks"), "--sockets", sockets, program, "desk", "--dir", folder]
    front = subprocess.Popen(words, stderr=subprocess.PIPE)
    until = time.monotonic() + SECONDS
    while not os.path.exists(os.path.join(sockets, "64")):
        if front.poll() is not None or time.monotonic() > until:
            front.kill()
            raise Wrong(f"tools/desks does not begin: {front.communicate()[1]!r}")
        time.sleep(0.01)
    return front


def look_at_answers(ledger, found):
    """Each number was answered once, to the connection whose record has it."""
    records = get(os.path.join(ledger.path, JOURNAL))[len(HEADER) :].splitlines(keepends=True)
    if [number for number, _, _ in found] != list(range(1, len(records) + 1)):
        raise Wrong("a number is missing, or was answered twice")
    if [record for _, record, _ in found] != records:
        raise Wrong("the journal has other records than were answered")
    ledger.rows |= {number: row for number, _, row in found}
    ledger.keep(ledger.journal())
    ledger.plan(True)


def try_front(program, calls=20):
    """Makes calls by 64 connections at once through tools/desks: what was done."""
    tables = tables_of(SHOP)
    with tempfile.TemporaryDirectory(prefix="desk-front-") as room:
        ledger, sockets = Ledger(os.path.join(room, "shop"), tables, Shop(tables), program), os.path.join(room, "sockets")
        os.mkdir(sockets)
        front = begin_front(program, ledger.path, sockets)
        try:
            found = asyncio.run(connect_all(sockets, calls))
            status, _, _ = run(os.path.join(TOP, "tools", "desks"), ["--sockets", sockets, program, "desk", "--dir", ledger.path])
            if status != 4:
                raise Wrong(f"a second front ends with status {status}")
            front.send_signal(signal.SIGTERM)
            _, said = front.communicate(timeout=SECONDS)
            if (front.returncode, said) != (0, b""):
                raise Wrong(f"it ends with status {front.returncode} and {said!r}")
        finally:
            front.kill()
        look_at_answers(ledger, found)
        return f"64 connections, {64 * calls} lines, {len(found)} records"


def answered(desk, text):
    """Sends a line, and waits for its answer."""
    desk.send(text)
    if not desk.take(desk.lines + 1):
        raise Wrong(f"{text!r} is not answered: {desk.close()!r}")


def look_beside(program, folder):
    """What has no lock goes on beside an open desk, and another desk does not."""
    for words in (["plan"], ["live"], ["inspect"], ["carry", "--start", "2025-01-13"]):
        status, day, said = run(program, [*words, "--dir", folder])
        if status:
            raise Wrong(f"mrp {words[0]} beside an open desk ends with status {status}: {said}")
        if words == ["plan"] and run(program, ["check", "--dir", folder], day)[1] != b"right\n":
            raise Wrong("mrp check beside an open desk does not find the day right")
    path = os.path.join(folder, "stock.csv")
    put(f"{path}.new", get(path))
    os.rename(f"{path}.new", path)
    found = run(program, ["desk", "--dir", folder], b"1,run,,,,\n")
    if found != (4, b"", "in use"):
        raise Wrong(f"another desk ends with {found}")


def look_at_run(desk, folder):
    """A run's file is there while its desk goes on."""
    answered(desk, b"1,run,,,,\n")
    number = bytes(desk.out).splitlines()[-1].split(b",")[0].decode()
    until = time.monotonic() + SECONDS / 2
    while not os.path.exists(os.path.join(folder, f"run-{number}.day")):
        if time.monotonic() > until:
            raise Wrong(f"run {number} has no file while its desk goes on")
        time.sleep(0.01)


def try_lock(program):
    """Opens a desk, looks beside it, kills it, and opens another: what was done."""
    with tempfile.TemporaryDirectory(prefix="desk-lock-") as room:
        tables = tables_of(SHOP)
        ledger = Ledger(os.path.join(room, "shop"), tables, Shop(tables), program)
        for _ in range(3):
            desk = Desk([program, "desk", "--dir", ledger.path])
            answered(desk, b"1,book,BIKE,2025-01-20,1,\n")
            look_beside(program, ledger.path)
            look_at_run(desk, ledger.path)
            desk.kill()
    return "3 desks, each killed and followed by the next"
