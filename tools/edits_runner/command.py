"""The command line of `tools/edits`: which edits are tried, of how many crates at a time, and how that ends."""

import argparse
import os
import sys
import threading
from concurrent.futures import ThreadPoolExecutor

from . import __doc__ as PACKAGE
from . import toolchain
from .changes import NoTurn
from .checks import CHECKS
from .compiling import do_not_compile
from .edit_files import edits_of, files_of_edits
from .report import Report
from .together import Waiting, try_together
from .turns import TURNS, turn_at

TOP = os.path.dirname(os.path.dirname(os.path.dirname(os.path.realpath(__file__))))


def words_given(words):
    """What the words of the command line ask for. Ends with status 2 at one that it does not know, and with 0 for help."""
    how = {"usage": argparse.SUPPRESS, "formatter_class": argparse.RawDescriptionHelpFormatter, "allow_abbrev": False}
    known = argparse.ArgumentParser(prog="tools/edits", description=PACKAGE, **how)
    known.add_argument("crate", nargs="?", help=argparse.SUPPRESS)
    known.add_argument("words", nargs="*", help=argparse.SUPPRESS)
    known.add_argument("--lanes", type=int, help=argparse.SUPPRESS)
    known.add_argument("--jobs", type=int, help=argparse.SUPPRESS)
    known.add_argument("--as-proved", action="store_true", help=argparse.SUPPRESS)
    known.add_argument("--in-turn", action="store_true", help=argparse.SUPPRESS)
    known.add_argument("--save", help=argparse.SUPPRESS)
    known.add_argument("--unspoiled", action="store_true", help=argparse.SUPPRESS)
    known.add_argument("--read", action="store_true", help=argparse.SUPPRESS)
    known.add_argument("--compile", action="store_true", help=argparse.SUPPRESS)
    given = known.parse_intermixed_args(words)
    if given.save and not os.path.isdir(given.save):
        known.error(f"{given.save} is no folder")
    for count in (given.lanes, given.jobs):
        if count is not None and count < 1:
            known.error(f"{count} is no number of checks or processes")
    return given


def fill(waiting, crates, given, report):
    """Names the crates whose edits are to be tried, all, or as standard input names them."""
    left = {it.name: it for it in crates if files_of_edits(it.folder)}
    try:
        for name in sys.stdin if given.as_proved else [*left]:
            if name.strip() in left:
                waiting.add(left.pop(name.strip()))
        for crate in left.values():
            report.fail_all(crate, len(files_of_edits(crate.folder)), "it is not proved")
    finally:
        waiting.end()


def unknown_word(crates, given):
    """What is asked for and not there: a crate, or edits with a word in their names; or None."""
    if given.crate and not crates:
        return f"no crate is named {given.crate}"
    names = [os.path.basename(path) for crate in crates for path in files_of_edits(crate.folder)]
    lost = next((word for word in given.words if not any(word in name for name in names)), None)
    return f"no edit of {given.crate} has '{lost}' in its name" if lost else None


def read(crates, words):
    """Reads the edits of these crates, says which are bad, and returns the exit status."""
    good, bad = 0, 0
    for crate in crates:
        taken, refused = edits_of(crate, words)
        for name, why in refused:
            print(f"{crate.name}/{name}: BAD EDIT: {why}")
        good, bad = good + len(taken), bad + len(refused)
    print(f"{good} edits read well, {bad} bad")
    return 1 if bad or not good else 0


def compile_them(crates, words):
    """Says which edits of these crates, whose libraries are built, do not compile, and returns the exit status."""
    good, bad = 0, 0
    for crate in crates:
        taken, refused = edits_of(crate, words)
        wrong = [*refused, *((edit.name, why) for edit, why in do_not_compile(crate, taken))]
        for name, why in wrong:
            print(f"{crate.name}/{name}: DOES NOT COMPILE: {why[:200]}", flush=True)
        good, bad = good + len(taken) + len(refused) - len(wrong), bad + len(wrong)
    print(f"{good} edits compile, {bad} do not")
    return 1 if bad or not good else 0


def turn_told(top):
    """The turn in which edits are tried, or None where none may wait; it is said which, or why."""
    try:
        turn = turn_at(top, toolchain.version())
    except NoTurn as why:
        print(f"no edit waits for another turn: {why}", flush=True)
        return None
    changes = turn.changes
    what = f"since {turn.landed[:8]} landed, the interfaces of {len(changes.interfaces)} crates have changed, and {len(changes.functions)} functions"
    print(f"turn {turn.number + 1} of {TURNS}; {what}", flush=True)
    return turn


def run(crates, given):
    """Tries the edits of these crates, and returns the exit status."""
    report, building, waiting = Report(), threading.Lock(), Waiting(given.words, given.turn)

    def lane():
        while crates_now := waiting.take():
            try_together(crates_now, given, report, building)

    with ThreadPoolExecutor(given.lanes) as pool:
        lanes = [pool.submit(lane) for _ in range(given.lanes)]
        fill(waiting, crates, given, report)
        for done in lanes:
            done.result()
    return report.close([] if given.crate or given.unspoiled else files_of_edits("crates/*"))


def main(words):
    given = words_given(words)
    os.chdir(TOP)
    try:
        crates = [it for it in toolchain.crates_below(TOP) if given.crate in (None, it.name)]
        processors = toolchain.processors()
    except toolchain.OtherToolchain as other:
        print(f"tools/edits: {other}", file=sys.stderr)
        return 2
    lost = unknown_word(crates, given)
    if lost:
        print(f"tools/edits: {lost}", file=sys.stderr)
        return 2
    if given.read:
        return read(crates, given.words)
    if given.compile:
        return compile_them(crates, given.words)
    given.turn = turn_told(TOP) if given.in_turn else None
    given.lanes = given.lanes or (processors if given.as_proved else 1)
    CHECKS.jobs, CHECKS.saved = given.jobs or (1 if given.as_proved else min(4, processors)), given.save
    return run(crates, given)
