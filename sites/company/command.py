"""The command line of `sites/night`."""

import argparse
import contextlib
import fcntl
import hashlib
import os
import shutil
import signal
import subprocess
import sys
import time

from . import __doc__ as PACKAGE
from .batches import batches_of, lay_batches, write_night
from .company import read_company
from .index import refused_states, states_tonight, write_index
from .site import Night
from .states import Word

SITES = os.path.dirname(os.path.dirname(os.path.realpath(__file__)))
TOP = os.path.dirname(SITES)
# What Python takes in a job beside mrp, in MB.
MEMORY_OF_PYTHON = 200
# How many sites that are not planned are told on standard error.
MOST_TOLD = 20


class NotThere(Exception):
    """Something that a night needs is not there: what."""


def count(word):
    """A number of something."""
    if not (word.isascii() and word.isdigit() and int(word) >= 1):
        raise argparse.ArgumentTypeError(f"{word} is no number from 1 on")
    return int(word)


def words_given(words):
    """What the words of the command line ask for. Ends with status 2 at one that it does not know, and with 0 for help."""
    how = {"usage": argparse.SUPPRESS, "formatter_class": argparse.RawDescriptionHelpFormatter, "allow_abbrev": False}
    known = argparse.ArgumentParser(prog="sites/night", description=PACKAGE, **how)
    known.add_argument("company", metavar="COMPANY", help=argparse.SUPPRESS)
    known.add_argument("--check", action="store_true", help=argparse.SUPPRESS)
    known.add_argument("--profile", default="local", help=argparse.SUPPRESS)
    known.add_argument("--jobs", type=count, default=len(os.sched_getaffinity(0)), help=argparse.SUPPRESS)
    known.add_argument("--batch", type=count, help=argparse.SUPPRESS)
    known.add_argument("--program", help=argparse.SUPPRESS)
    known.add_argument("--memory", type=count, default=1000, help=argparse.SUPPRESS)
    known.add_argument("--minutes", type=count, default=60, help=argparse.SUPPRESS)
    given = known.parse_args(words)
    given.company = os.path.abspath(given.company)
    return given


def program_given(path):
    """The program mrp, as it is named, in the path, or as it is built here."""
    found = path or shutil.which("mrp") or os.path.join(TOP, "bin", "mrp")
    if not os.access(found, os.X_OK) or os.path.isdir(found):
        raise NotThere(f"{found}: there is no such program; ./plan builds bin/mrp")
    return os.path.abspath(found)


def profile_given(name):
    """The folder of a profile of Snakemake: one of ours by its name, or another."""
    own = os.path.join(SITES, "profiles", name)
    found = own if os.path.isdir(own) else os.path.abspath(name)
    if not os.path.isdir(found):
        raise NotThere(f"{name}: there is no such profile; expected local, slurm or a folder")
    return found


def sum_of(paths):
    """What tells files from others."""
    told = hashlib.sha256()
    for path in paths:
        with open(path, "rb") as held:
            told.update(hashlib.sha256(held.read()).digest())
    return told.hexdigest()


def own_files():
    """The files of this package, of which plans are made too."""
    here = os.path.join(SITES, "company")
    return sorted(os.path.join(here, name) for name in os.listdir(here) if name.endswith(".py"))


@contextlib.contextmanager
def alone(folder):
    """Keeps other nights of the company out, until this one ends, also where that is a kill."""
    room = os.path.join(folder, "night")
    os.makedirs(room, exist_ok=True)
    with open(os.path.join(room, "lock"), "w", encoding="utf-8") as held:
        try:
            fcntl.flock(held, fcntl.LOCK_EX | fcntl.LOCK_NB)
        except OSError:
            raise NotThere(f"{folder}: another night of this company is at work") from None
        yield


def run_snakemake(given, profile, batches):
    """Runs the workflow, and says every minute how far it is. An interrupt ends it first."""
    jobs, log = str(given.jobs), os.path.join(given.company, "night", "snakemake.log")
    words = ["snakemake", "-s", os.path.join(SITES, "Snakefile"), "--directory", given.company, "--profile", profile]
    words += ["--jobs", jobs, "--cores", jobs, "--nolock"]  # (the lock of the night is ours)
    how = {"env": {"USER": str(os.getuid()), **os.environ}, "stdin": subprocess.DEVNULL, "start_new_session": True}
    how["preexec_fn"] = lambda: signal.signal(signal.SIGINT, signal.SIG_DFL)  # (which a shell's background ignores)
    with open(log, "w", encoding="utf-8") as told, subprocess.Popen(words, stdout=told, stderr=told, **how) as running:
        try:
            while not is_over(running):
                done = sum(os.path.exists(os.path.join(given.company, "night", f"{name}.done")) for name in batches)
                print(f"night: {done} of {len(batches)} jobs done", file=sys.stderr, flush=True)
        except KeyboardInterrupt:
            running.send_signal(signal.SIGINT)
            running.wait()
            raise


def is_over(running):
    """Waits for a minute, at most, for a process to end."""
    try:
        running.wait(60)
    except subprocess.TimeoutExpired:
        return False
    return True


def refuse(given, company):
    """Says why nothing is planned, also on the company's page."""
    print("".join(f"refused: {fault}\n" for fault in company.faults), end="", file=sys.stderr)
    print("night: nothing is planned", file=sys.stderr)
    if not given.check:
        write_index(given.company, company, refused_states(company))
    return 1


def plan_company(given, company, profile):
    """Plans what has to be planned, and answers how each site stands."""
    program = program_given(given.program)
    name = f"{time.time_ns()}"
    night = Night(given.company, program, sum_of([program, *own_files()]), given.memory, name)
    batches = batches_of(company.tier, given.jobs, given.batch)
    tool = [sys.executable, "-B", os.path.join(SITES, "plan_batch")]
    lay_batches(night, batches, company.sites, company.sums)
    write_night(night, tool, given.memory + MEMORY_OF_PYTHON, given.minutes)
    run_snakemake(given, profile, batches)
    states = states_tonight(night, company, batches)
    write_index(given.company, company, states)
    return states, sum(state.is_new and state.night == name for state in states.values())


def tell(states, is_new):
    """Says how many sites stand how, and why those that are not planned are not."""
    lost = [(site, state) for site, state in states.items() if state.word in (Word.REFUSED, Word.STOPPED)]
    for site, state in lost[:MOST_TOLD]:
        print(f"{site}: {state.word}: {state.why}", file=sys.stderr)
    if len(lost) > MOST_TOLD:
        print(f"and {len(lost) - MOST_TOLD} more", file=sys.stderr)
    if any(state.word == Word.STOPPED for _, state in lost):
        print("night: night/snakemake.log and the logs beside it say more", file=sys.stderr)
    print(f"{len(states)} sites: {counted(states)}; {is_new} anew")


def counted(states):
    words = [state.word for state in states.values()]
    return ", ".join(f"{words.count(word)} {word.value}" for word in (Word.PLANNED, Word.REFUSED, Word.STOPPED, Word.WAITS))


def run_night(given):
    company = read_company(given.company)
    if company.faults:
        return refuse(given, company)
    if given.check:
        sizes = [list(company.tier.values()).count(tier) for tier in range(max(company.tier.values(), default=-1) + 1)]
        print(f"right: {len(company.names)} sites, in tiers of {', '.join(map(str, sizes))}")
        return 0
    profile = profile_given(given.profile)
    if not shutil.which("snakemake"):
        raise NotThere("there is no program snakemake: apt-get install snakemake")
    with alone(given.company):
        states, is_new = plan_company(given, company, profile)
    tell(states, is_new)
    return 0 if all(state.word == Word.PLANNED for state in states.values()) else 1


def main(words):
    given = words_given(words)
    for ending in (signal.SIGTERM, signal.SIGHUP):
        if signal.getsignal(ending) != signal.SIG_IGN:  # (as under nohup)
            signal.signal(ending, signal.default_int_handler)
    try:
        return run_night(given)
    except KeyboardInterrupt:
        print("night: interrupted; the same command takes it up", file=sys.stderr)
        return 130
    except NotThere as lost:
        print(f"night: {lost}", file=sys.stderr)
    except OSError as failed:
        print(f"night: {failed.filename or given.company}: {failed.strerror}", file=sys.stderr)
    return 2
