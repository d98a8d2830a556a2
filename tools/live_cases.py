"""The cases of live days, which may have many forms: what all of them have in common."""

import os
from dataclasses import dataclass

from carry_cases import lay_bytes, run

TOP = os.path.dirname(os.path.dirname(os.path.realpath(__file__)))
SHOP = os.path.join(TOP, "shops", "bicycle.bundle")
DATA = os.path.join(TOP, "crates", "mrp_cases", "data")
# How often a day is made.
RUNS = 8
RUN = b"1,run,,,,\n"
# Two desks that take turns.
IN_TURN = b"1,ask,BIKE,2025-01-06,,\n2,ask,BIKE,2025-01-06,,\n"


def bytes_of(path):
    with open(path, "rb") as held:
        return held.read()


def rows_of(day):
    """The rows of a day's history."""
    return day.partition("\n[run]\n")[0].splitlines()[2:]


@dataclass
class AddedRun:
    """A script of two desks without a run: each desk makes its calls in order, and the run that is added is the last entry."""

    room: str
    name: str = "a live day whose run is added"

    def fault(self, program):
        """What is not as it must be, if anything is."""
        bundle, tables = bytes_of(SHOP).removesuffix(RUN), os.path.join(self.room, "added-run")
        lay_bytes(bundle, tables)
        for _ in range(RUNS):
            status, day, error = run(program, ["live", "--workers", "8"], bundle)
            if status or error:
                return f"status {status}, '{error}'"
            last = rows_of(day)[-1]
            if last != "7,1,run,,,,,front,7":
                return f"the last entry is '{last}'"
            _, found, _ = run(program, ["check", "--dir", tables], day.encode())
            if found != "right\n":
                return f"a check finds '{found}'"
        return None


@dataclass
class NotInTurn:
    """Two desks whose 800 records alternate: in row order each call would be made in turn, which no two threads do."""

    name: str = "a live day that is not made in row order"

    def fault(self, program):
        bundle = bytes_of(SHOP).partition(b"1,book,")[0] + 400 * IN_TURN
        planned, lived = run(program, ["plan"], bundle), run(program, ["live"], bundle)
        if planned[0] or lived[0] or len(planned[1]) != len(lived[1]):
            return f"status {planned[0]} and {lived[0]}, {len(planned[1])} and {len(lived[1])} characters"
        return "it is made in row order" if planned == lived else None


@dataclass
class TooLarge:
    """Nothing is written where a later run gets too large."""

    name: str = "a live day that gets too large in a later run"

    def fault(self, program):
        case = os.path.join(DATA, "too-large-in-a-later-run")
        ended = run(program, ["live"], bytes_of(f"{case}.bundle"))
        wanted = (1, "", bytes_of(f"{case}.said").decode())
        return None if ended == wanted else f"it ends with {ended}, and not {wanted}"


def live_cases(room):
    return [AddedRun(room), NotInTurn(), TooLarge()]
