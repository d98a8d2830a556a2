"""The plan of one site: its tables with the forecast of its buyers, the plan, its check and its page, whole or not at all."""

import contextlib
import fcntl
import hashlib
import json
import os
import resource
import subprocess
import traceback
from dataclasses import asdict, dataclass, replace

from whole_files import Refused, look_at_folder, whole_folder

from . import drp
from .links import Link
from .states import State, Word, read_state, write_json, write_state
from .summary import last_run, summary_of
from .tables import Tables

# What a plan has; all of it takes its name at once.
PLAN = "plan"
FILES = ("day", "page.html", "releases.csv", "drp.csv", "line.json", "warnings.txt", "tables")
FAULTS = "faults.txt"


class Waits(Exception):
    """Sites that buy from this one are not planned this night."""


class Stopped(Exception):
    """The plan came to no end, which says nothing about the tables."""


@dataclass(frozen=True)
class Site:
    """A site as its job sees it: which of its items are bought, and its links to those that buy from it."""

    name: str
    buys: list
    sells: list

    def told(self):
        return {"buys": self.buys, "sells": [asdict(replace(link, line=0)) for link in self.sells]}

    @staticmethod
    def of(name, told):
        return Site(name, told["buys"], [Link(**link) for link in told["sells"]])

    def buyers(self):
        return sorted({link.site for link in self.sells})


@dataclass(frozen=True)
class Night:
    """What all jobs of a night share: its folders, the program, the sum that tells it and this package from others, the most MB that
    the program may take, and the night's own name."""

    folder: str
    program: str
    sum: str
    memory: int
    name: str

    @property
    def out(self):
        return os.path.join(self.folder, "out")

    def place(self, site, *names):
        return os.path.join(self.out, site, *names)

    def is_over(self):
        """Whether another night has begun."""
        with open(os.path.join(self.folder, "night", "night.json"), encoding="utf-8") as held:
            return json.load(held)["name"] != self.name


@contextlib.contextmanager
def locked(path):
    """Waits until no other job is at work on a site; one may have outlived its night."""
    with open(path, "w", encoding="utf-8") as held:
        fcntl.flock(held, fcntl.LOCK_EX)
        yield


def plan_site(night, site):
    """Plans a site, unless it was planned or refused from the same before, and writes its state, which is answered."""
    os.makedirs(night.place(site.name), exist_ok=True)
    with locked(night.place(site.name, "lock")):
        old = read_state(night.out, site.name) or State(Word.STOPPED)
        state = replace(settled(night, site, old), night=night.name)
        write_state(night.out, site.name, state)
    return state


def settled(night, site, old):
    """What becomes of a site that stood so before."""
    key = ""
    try:
        look_at_buyers(night, site)
        releases = {buyer: drp.read_releases(night.place(buyer, PLAN, "releases.csv")) for buyer in site.buyers()}
        tables = Tables.read(os.path.join(night.folder, "sites", site.name))
        key = key_of(night, site, tables, releases)
        if old.word == Word.REFUSED and old.key == key:
            return replace(old, is_new=False)
        with contextlib.suppress(FileNotFoundError):
            os.remove(night.place(site.name, FAULTS))
        if is_plan_of(night, site, key):
            return State(Word.PLANNED)
        write_state(night.out, site.name, State(Word.RUNNING, night=night.name))
        make_plan(night, site, tables, releases, key)
    except Waits as buyers:
        return State(Word.WAITS, str(buyers))
    except Refused as refused:
        return State(Word.REFUSED, str(refused).splitlines()[0], key, is_new=True)
    except (Stopped, OSError) as stopped:
        return State(Word.STOPPED, str(stopped))
    except Exception as fault:  # (one site's job does not end the others of its batch)
        traceback.print_exc()
        return State(Word.STOPPED, f"{type(fault).__name__}: {fault}")
    return State(Word.PLANNED, is_new=True)


def look_at_buyers(night, site):
    """Waits for the buyers that are not planned."""
    states = {buyer: read_state(night.out, buyer) for buyer in site.buyers()}
    lost = [buyer for buyer, state in states.items() if not state or state.word != Word.PLANNED]
    if lost:
        raise Waits(", ".join(lost))


def key_of(night, site, tables, releases):
    """What tells apart all that a site's plan is made from."""
    told = [night.sum, site.name, tables.sum(), sorted(site.buys)]
    for link in site.sells:
        told.append([link.site, link.item, link.supplier_item, link.transit, link.replaces])
        told.append([it.row() for it in releases[link.site] if it.item == link.item])
    return hashlib.sha256(json.dumps(told).encode()).hexdigest()


def read_line(out, site):
    """What the last good plan of a site comes to, with the key of what it was made from; or None where there is none."""
    try:
        with open(os.path.join(out, site, PLAN, "line.json"), encoding="utf-8") as held:
            return json.load(held)
    except (OSError, ValueError):
        return None


def is_plan_of(night, site, key):
    """Whether the plan that stands was made from what has this key, and is whole."""
    is_whole = all(os.path.exists(night.place(site.name, PLAN, name)) for name in FILES)
    return is_whole and (read_line(night.out, site.name) or {}).get("key") == key


def make_plan(night, site, tables, releases, key):
    """Makes the plan in a folder of its own, which then takes the place of the one before."""
    to = night.place(site.name, PLAN)
    look_at_folder(to, FILES, True)
    with whole_folder(to, FILES, True) as room:
        laid = os.path.join(room, "tables")
        os.mkdir(laid)
        tables.write(laid)
        inspect(night, site, laid, os.path.join(room, "warnings.txt"))
        found = lay_forecast(site, tables, releases, laid)
        write_bytes(os.path.join(room, "drp.csv"), drp.shipments_text(found))
        draw_day(night, laid, site.name, room)
        close_day(site, tables, found, room, key)


def inspect(night, site, tables, warnings):
    """Has the program tell all faults of the site's own tables, by their own lines, or what is odd."""
    try:
        run(night, ["inspect", "--dir", tables], warnings)
    except Refused:
        with open(warnings, encoding="utf-8", errors="replace") as held:
            lines = held.read().splitlines()
        os.replace(warnings, night.place(site.name, FAULTS))
        more = f" (and {len(lines) - 2} more)" if len(lines) > 2 else ""
        raise Refused(f"{lines[0]}{more}" if lines else "inspect found a fault and told none") from None


def lay_forecast(site, tables, releases, laid):
    """Writes the master schedule with the forecast of the site's buyers, and answers what is shipped to them."""
    if site.buys:
        tables.look("items", "bills")
    if not site.sells:
        return []
    found = drp.shipments(site.sells, releases.__getitem__, tables.calendar())
    write_bytes(os.path.join(laid, "master.csv"), drp.master_text(tables, site.sells, found))
    return found


def draw_day(night, tables, title, room):
    """Plans, checks and draws the day."""
    day = os.path.join(room, "day")
    run(night, ["plan", "--dir", tables], day)
    run(night, ["check", "--dir", tables], os.devnull, day)
    run(night, ["page", "--dir", tables, f"--title={title}"], os.path.join(room, "page.html"), day)


def close_day(site, tables, found, room, key):
    """Writes what other sites and the company's page need of the day."""
    supplied = {link.supplier_item for link in site.sells}
    with open(os.path.join(room, "day"), "rb") as held:
        rows = last_run(held)
        released = drp.releases_in(rows("orders"), set(site.buys), tables.calendar()) if site.buys else []
        told = {**asdict(summary_of(rows, found, supplied)), "items": len(tables.classes() or ()), "key": key}
        write_json(os.path.join(room, "line.json"), told)
    write_bytes(os.path.join(room, "releases.csv"), drp.releases_text(released))


def write_bytes(path, data):
    with open(path, "wb") as held:
        held.write(data)


def run(night, words, to, source=os.devnull):
    """Runs the program. Refused where it refuses its input, with status 1, and Stopped where it comes to no end."""

    def limit():
        if night.memory:
            resource.setrlimit(resource.RLIMIT_DATA, (night.memory << 20, night.memory << 20))

    with open(source, "rb") as read, open(to, "wb") as written:
        how = {"stdin": read, "stdout": written, "stderr": subprocess.PIPE, "preexec_fn": limit, "check": False}
        ended = subprocess.run([night.program, *words], **how)
    said = ended.stderr.decode("utf-8", "replace").splitlines()
    if ended.returncode == 1:
        raise Refused(said[0] if said else f"mrp {words[0]} says that something is wrong")
    if ended.returncode:
        how = f"status {ended.returncode}" if ended.returncode > 0 else f"signal {-ended.returncode}"
        raise Stopped(f"mrp {words[0]}: {said[0] if said else how}")
