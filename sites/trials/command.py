"""The command line of `sites/trial`."""

import argparse
import os
import shutil
import signal
import sys
import tempfile

from company.command import NotThere, count, program_given

from . import __doc__ as PACKAGE
from .example import look_at_example
from .made import make_company
from .nights import Tried, children_of, digests, fed_by, plan_in_turn

SHORT = ("nothing", "again", "stock", "refused", "night")


class Trials:
    """A company, the company that was planned in turn, and what is right so far."""

    def __init__(self, folder, given):
        self.tried = Tried(os.path.join(folder, "company"), words_of(given))
        self.turn, self.program, self.name = os.path.join(folder, "in-turn"), given.program, name_of(given)
        make_company(self.tried.folder, given.sites, given.items)
        self.plan_in_turn()
        self.ends = []

    def plan_in_turn(self):
        """Plans the company as it is now without Snakemake, and notes the bytes that nights must make."""
        shutil.rmtree(self.turn, ignore_errors=True)
        os.mkdir(self.turn)
        for name in ("sites", "links.csv"):
            source = os.path.join(self.tried.folder, name)
            (shutil.copytree if name == "sites" else shutil.copy)(source, os.path.join(self.turn, name))
        plan_in_turn(self.turn, self.program)
        self.wanted = digests(self.turn)

    def tell(self, trial, ended, *faults):
        """Says how a trial ended, and what is wrong."""
        wrong = [fault for fault in faults if fault]
        took = f"({ended.seconds:.1f} s, {ended.processors:.1f} s of processors)"
        end = f"NOT as it must be: {wrong[0]}" if wrong else "as it must be"
        print(f"sites, {self.name}, {trial}: {ended.said}: {end} {took}", flush=True)
        self.ends.append(not wrong)

    def bytes_fault(self):
        """What is wrong with the bytes of the plans."""
        found = digests(self.tried.folder)
        other = [site for site in self.wanted if not found[site] or found[site] != self.wanted[site]]
        return f"{len(other)} plans have other bytes, as that of {other[0]}" if other else None

    def new_sites(self):
        """The sites that the last night has planned anew."""
        states = self.tried.states()
        last = max(state.night for state in states.values() if state)
        return {site for site, state in states.items() if state.night == last and state.is_new}

    def new_fault(self, most):
        more = self.new_sites() - most
        return f"{len(more)} more were planned anew, as {sorted(more)[0]}" if more else None

    def table(self, site, name):
        return os.path.join(self.tried.folder, "sites", site, f"{name}.csv")

    def some_site(self, tier):
        """The first site of a tier that feeds others."""
        names = [name for name in sorted(self.wanted) if name.startswith(f"T{tier}-")]
        return next(name for name in names if len(fed_by(self.tried.folder, name)) > 1)

    # ---- the trials

    def nothing(self):
        self.tried.clear()
        ended = self.tried.night()
        self.tell("from nothing", ended, status_fault(ended, 0), self.bytes_fault())

    def again(self):
        before = len(os.listdir(os.path.join(self.tried.folder, ".snakemake", "log")))
        ended = self.tried.night()
        after = len(os.listdir(os.path.join(self.tried.folder, ".snakemake", "log")))
        fault = None if after == before + 1 else "snakemake did not run once"
        self.tell("nothing changed", ended, status_fault(ended, 0), said_fault(ended, "; 0 anew"), self.bytes_fault(), fault)

    def stock(self):
        site = self.some_site(0)
        change_first(self.table(site, "stock"))
        self.plan_in_turn()
        ended, fed = self.tried.night(), fed_by(self.tried.folder, site)
        fault = None if site in self.new_sites() else "it was not planned anew"
        faults = (status_fault(ended, 0), self.bytes_fault(), self.new_fault(fed), fault)
        self.tell(f"one stock changed, which feeds {len(fed)} sites", ended, *faults)

    def refused(self):
        site, fed = self.some_site(1), None
        items, page = self.table(site, "items"), os.path.join(self.tried.folder, "out", site, "plan", "page.html")
        with open(items, "rb") as held:
            old = held.read()
        with open(items, "ab") as held:
            held.write(b"STRANGE,part,0,0,LFL,0,0\n")
        ended, fed = self.tried.night(), fed_by(self.tried.folder, site)
        states = self.tried.states()
        stand = {name: "refused" if name == site else "waits" if name in fed else "planned" for name in states}
        wrong = [name for name in states if states[name].word != stand[name]]
        fault = f"{wrong[0]} is {states[wrong[0]].word}" if wrong else None if os.path.exists(page) else "its last page is gone"
        self.tell(f"one site refused, which feeds {len(fed)} sites", ended, status_fault(ended, 1), fault, self.bytes_fault())
        with open(items, "wb") as held:
            held.write(old)
        ended = self.tried.night()
        self.tell("it is mended", ended, status_fault(ended, 0), self.bytes_fault(), self.new_fault(fed))

    def job(self):
        self.tried.clear()
        started = self.tried.start()
        self.tried.wait_for(len(self.wanted) // 3)
        is_killed = self.tried.kill_one("plan_batch")
        status = started.wait()
        done, left = self.tried.planned(), len(self.tried.left())
        ended = self.tried.night()
        # (it may have been killed at its very end, when all its sites were planned)
        is_right = is_killed and status == (1 if done < len(self.wanted) else 0)
        fault = None if is_right else f"the night of which a job was killed has status {status}"
        other = f"{left} jobs were not done, of which one was killed" if left > 1 else None
        self.tell(f"a job killed, {done} planned then; again", ended, status_fault(ended, 0), fault, other, self.bytes_fault())

    def night(self):
        self.tried.clear()
        started = self.tried.start()
        self.tried.wait_for(len(self.wanted) // 3)
        below = children_of(started.pid)
        for process in (started.pid, *below):
            os.kill(process, signal.SIGKILL)
        started.wait()
        done = self.tried.planned()
        ended = self.tried.night()
        fault = None if below else "there was no snakemake to be killed"
        self.tell(f"the night killed, {done} planned then; again", ended, status_fault(ended, 0), fault, self.bytes_fault())

    def memory(self):
        site = self.some_site(0)
        with open(self.table(site, "items"), "a", encoding="utf-8") as held:
            held.writelines(f"LARGE{number},part,0,0,lfl,0,0\n" for number in range(19_000))
        ended, fed = self.tried.night("--memory", "16"), fed_by(self.tried.folder, site)
        states = self.tried.states()
        stand = {name: "stopped" if name == site else "waits" if name in fed else "planned" for name in states}
        wrong = [f"{name} is {states[name].word}: {states[name].why}" for name in states if states[name].word != stand[name]]
        self.tell(f"no memory for one site, which feeds {len(fed)}: {states[site].why}", ended, status_fault(ended, 1), *wrong[:1])
        self.plan_in_turn()
        ended = self.tried.night()
        self.tell("it may take more", ended, status_fault(ended, 0), self.bytes_fault(), self.new_fault(fed))


def status_fault(ended, wanted):
    return None if ended.status == wanted else f"status {ended.status}"


def said_fault(ended, wanted):
    return None if wanted in ended.said else f"'{wanted}' was not said"


def change_first(path):
    """Adds a piece to the number that the first record of a table ends with."""
    with open(path, encoding="utf-8") as held:
        lines = held.read().splitlines()
    cells = lines[1].split(",")
    lines[1] = ",".join([*cells[:-1], str(int(cells[-1]) + 1)])
    with open(path, "w", encoding="utf-8") as held:
        held.write("\n".join(lines) + "\n")


TRIALS = ("nothing", "again", "stock", "refused", "job", "night", "memory")


def words_given(words):
    """What the words of the command line ask for. Ends with status 2 at one that it does not know, and with 0 for help."""
    how = {"usage": argparse.SUPPRESS, "formatter_class": argparse.RawDescriptionHelpFormatter, "allow_abbrev": False}
    known = argparse.ArgumentParser(prog="sites/trial", description=PACKAGE, **how)
    known.add_argument("trials", metavar="TRIAL", nargs="*", help=argparse.SUPPRESS)
    for name in ("--sites", "--items", "--jobs", "--batch"):
        known.add_argument(name, type=count, help=argparse.SUPPRESS)
    for name in ("--profile", "--program", "--folder"):
        known.add_argument(name, help=argparse.SUPPRESS)
    for name in ("--keep", "--short"):
        known.add_argument(name, action="store_true", help=argparse.SUPPRESS)
    given = known.parse_args(words)
    strange = [trial for trial in given.trials if trial not in TRIALS]
    if strange:
        known.error(f"{strange[0]} is no trial; expected {', '.join(TRIALS)}")
    given.trials = [trial for trial in TRIALS if trial in (given.trials or (SHORT if given.short else TRIALS))]
    given.sites, given.items = given.sites or 20, given.items or 500
    return given


def words_of(given):
    """The words by which nights are run."""
    told = {"--jobs": given.jobs, "--batch": given.batch, "--profile": given.profile, "--program": given.program}
    return [word for name, value in told.items() if value for word in (name, str(value))]


def name_of(given):
    jobs = f"{given.jobs} job{'s' if given.jobs > 1 else ''}" if given.jobs else "as many jobs as processors"
    batches = f", batches of {given.batch}" if given.batch else ""
    return f"{given.sites} of {given.items} items, {jobs}{batches}{f', {given.profile}' if given.profile else ''}"


def run_trials(folder, given):
    ends = look_at_example(os.path.join(folder, "example"), words_of(given)) if given.short else []
    trials = Trials(folder, given)
    for trial in given.trials:
        getattr(trials, trial)()
    return ends + trials.ends


def main(words):
    given = words_given(words)
    if not shutil.which("snakemake"):
        print("trial: there is no program snakemake, so no night was tried: apt-get install snakemake\n0 passed, 0 failed")
        return 0
    try:
        given.program = program_given(given.program)
    except NotThere as lost:
        print(f"trial: {lost}", file=sys.stderr)
        return 2
    folder = tempfile.mkdtemp(prefix="sites-", dir=given.folder)
    try:
        ends = run_trials(folder, given)
    finally:
        if given.keep:
            print(f"trial: {folder} is kept", file=sys.stderr)
        else:
            shutil.rmtree(folder, ignore_errors=True)
    print(f"{sum(ends)} passed, {len(ends) - sum(ends)} failed")
    return 0 if all(ends) else 1
