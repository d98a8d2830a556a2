"""A desk that gets a few lines step by step, while something of its files or memory fails, and is started once more without."""

import os
import re
from dataclasses import dataclass, field

from .calls import Line, Wrong
from .folders import HEADER, JOURNAL, put, tables_of
from .ledger import Ledger
from .messages import messages
from .processes import Desk, Stuck

SHOP = "bicycle"
RUN_TOLD = re.compile(r"run (\d+): (write failed|no memory)")


def call(text):
    return Line(f"{text}\n".encode(), f"{text}\n".encode())


# What is sent once all before it is answered; a run is followed by calls, which come while it is made.
STEPS = [
    [call("1,book,BIKE,2025-01-20,12,")],
    [Line(b"x\n", fault=b"6 columns")],
    [call("1,ask,BIKE,2025-01-20,,"), call("2,book,BIKE,2025-02-03,25,"), call("2,cancel,,,,1"), Line(b"1,sell,,,,\n", fault=b"10 word")],
    [call("3,run,,,,")],
    [call("2,book,BIKE,2025-01-06,3,")],
    [call("2,when,BIKE,,5,"), call("4,run,,,,")],
    [call("2,cancel,,,,3")],
]
AGAIN = [call("5,ask,BIKE,2025-01-20,,")]
# Journals as a start finds them: none, and one that ends in half a record and has a run without a file.
BEFORE = {"no journal": None, "a cut journal": HEADER + b"1,book,BIKE,2025-01-06,1,\n1,run,,,,\n1,ca"}


@dataclass
class Lived:
    """How a desk ended: status, answers, what it said, and the lines that it got."""

    status: int
    answers: list
    part: bytes
    said: str
    lines: list = field(default_factory=list)


def live(program, folder, steps, env=None):
    """Runs a desk step by step, until it ends."""
    desk, lines = Desk([program, "desk", "--dir", folder], env=env), []
    try:
        for step in steps:
            lines += step
            if not desk.send(b"".join(line.text for line in step)) or not desk.take(len(lines)):
                break
        status, out, said = desk.end()
    except Stuck:
        desk.kill()
        raise Wrong(f"it does not answer, or does not end: {desk.out[-200:]!r}") from None
    *answers, part = out.split(b"\n")
    return Lived(status, [answer + b"\n" for answer in answers], part, said.decode(errors="replace"), lines)


def begin(path, program, shop, before):
    """A ledger of the steps' shop, whose journal is as a start finds it."""
    ledger = Ledger(path, tables_of(SHOP), shop, program)
    if before is not None:
        put(os.path.join(path, JOURNAL), before)
        ledger.keep(before)
    return ledger


def look_at_said(lived, ledger):
    """Looks at what a desk said at its end beside what is cut: its lines, and which runs are told."""
    lines = messages(lived.said)
    cut = [line for line in lines if line.startswith("cut: ")]
    if cut and cut != ledger.cut_told():
        raise Wrong(f"a cut record is told so: {lived.said!r}")
    if lived.answers and not cut and ledger.is_torn:
        raise Wrong("it does not say that it cut a record away")
    rest = [line for line in lines if line not in cut]
    told = {int(found[1]): found[2] for found in map(RUN_TOLD.fullmatch, rest) if found}
    return [line for line in rest if not RUN_TOLD.fullmatch(line)], told


def look(lived, ledger, endings):
    """Looks at a life to which something was refused: it ended in one of these ways (status and last line), and lost nothing."""
    rest, told = look_at_said(lived, ledger)
    if (lived.status, rest) not in endings:
        raise Wrong(f"it ends with status {lived.status} and {lived.said!r}")
    if lived.status == 0 and (len(lived.answers) != len(lived.lines) or lived.part):
        raise Wrong(f"{len(lived.answers)} answers to {len(lived.lines)} lines")
    ledger.account(lived.lines, lived.answers, lived.part)
    ledger.lacking |= {number for number, word in told.items() if word == "no memory"}
    ledger.plan(lived.status == 0 and not told)


def look_again(program, ledger):
    """Starts it once more with nothing refused: what was answered stands, and each run has its file."""
    lived = live(program, ledger.path, [AGAIN])
    rest, told = look_at_said(lived, ledger)
    if (lived.status, rest, told) != (0, [], {}):
        raise Wrong(f"the next start ends with status {lived.status} and {lived.said!r}")
    ledger.account(lived.lines, lived.answers)
    ledger.plan(True)
