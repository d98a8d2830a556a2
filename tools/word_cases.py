"""The cases of words: usage, help, folders that serve no plan, days of given workers, pages, and an error stream that fails."""

import os
import subprocess
from dataclasses import dataclass, field

from carry_cases import SECONDS, lay_bytes

TOP = os.path.dirname(os.path.dirname(os.path.realpath(__file__)))
DATA = os.path.join(TOP, "crates", "mrp_cases", "data")
# A bundle with a script of one call, a run, and its day; tables with bookings of two desks, and the day of other ones.
BUNDLE, DAY = os.path.join(DATA, "bicycles.bundle"), os.path.join(DATA, "bicycles.day")
# The shop whose frames are welded.
WELDED = os.path.join(TOP, "shops", "bicycle.bundle")
MISSING = "refused: 4 missing-section calendar 0\n"
NO_FILE = f"{MISSING}hint: mrp inspect --dir D tells all faults\n"
READ_FAILED = "read failed\n"
# The most bytes of a bundle.
MOST = 67_108_864
GREATEST = "0 is not in 1..18446744073709551615"
NO_VALUE = "a value is required for '{}' but none was supplied"
TWICE = "the argument '{}' cannot be used multiple times"
REQUIRED = "the following required arguments were not provided:"
WORKERS, DIR = "--workers <N>", "--dir <D>"

# Wrong words, and the first line that is said of them.
WRONG = [
    ("", "'mrp' requires a subcommand but one was not provided"),
    ("plans", "unrecognized subcommand 'plans'"),
    ("lives", "unrecognized subcommand 'lives'"),
    ("plan --workers 0", f"invalid value '0' for '{WORKERS}': 0 is not in 1..=64"),
    ("plan --workers 65", f"invalid value '65' for '{WORKERS}': 65 is not in 1..=64"),
    ("plan --workers x", f"invalid value 'x' for '{WORKERS}': invalid digit found in string"),
    ("plan --workers", NO_VALUE.format(WORKERS)),
    ("plan --workers 1 --workers 2", TWICE.format(WORKERS)),
    ("plan --dir", NO_VALUE.format(DIR)),
    ("plan --dir a --dir b", TWICE.format(DIR)),
    ("plan more", "unexpected argument 'more' found"),
    ("live more", "unexpected argument 'more' found"),
    ("plan live", "unexpected argument 'live' found"),
    ("live --workers 0", f"invalid value '0' for '{WORKERS}': 0 is not in 1..=64"),
    ("page more", "unexpected argument 'more' found"),
    ("page --dir", NO_VALUE.format(DIR)),
    ("page --run 0", f"invalid value '0' for '--run <K>': {GREATEST}"),
    ("check", REQUIRED),
    ("check --dir shop --workers 2", "unexpected argument '--workers' found"),
    ("carry --dir shop", REQUIRED),
    ("carry --numbers=1", "unexpected value '1' for '--numbers' found; no more were expected"),
    ("desk --workers 2", REQUIRED),
    ("desk --dir shop --workers 65", f"invalid value '65' for '{WORKERS}': 65 is not in 1..=64"),
    ("--workers 2", "unexpected argument '--workers' found"),
]

# Wrong words that name an input, to which a hint is given, and others.
STRAY = [
    "plan shop.bundle",
    "plan --workers 2 shop.bundle",
    "live shop --workers 2",
    "page shop.day",
    "check shop.day --dir shop",
    "carry shop --start 2025-01-13",
    "plan live",
]
NO_STRAY = ["", "plan --workers", "help plans", "plans shop"]

# What the help of each command has, and that of no other.
HELP = {
    "": "\n  plan     Plans a bundle from standard input, or the files of a folder\n"
    "  live     Plans the same with its desks at work beside one another\n",
    "plan": "  [promises]  each master item and week",
    "live": "has the desks of its script make their calls beside one another,\n",
    "page": "Nothing is fetched, and there is no script.",
    "check": "  wrong: report N   the report of run N",
    "carry": "With --numbers a list is written in its place",
    "inspect": "  2 faults (warnings are told when there is none)\n",
    "desk": "  1,1,book,BIKE,3,12,,booked,1    the row of the history, as",
}

# Words of a page of a small day, what it has, and what it lacks.
PAGES = [
    (["page"], "<title>Plan</title>", "<title></title>"),
    (["page", "--run", "1"], 'id="i-WHEEL"', "<script"),
    (["page", "--title", "A & B"], "<h1>A &amp; B</h1>", "A & B"),
    (["page", "--title="], "<title></title>", "Plan</title>"),
    (["page", "--items", "WHEEL"], 'id="i-WHEEL"', 'id="i-BIKE"'),
    (["page", '--items=BIKE,"FRAME"'], 'id="i-FRAME"', 'id="i-WHEEL"'),
    (["page", "--items", '"BIKE,FRAME"'], "Work centres", 'id="i-'),
]

# What a page with tables has, and what it lacks.
FACTS = [
    ("weeks: <b>6</b> from <b>6 Jan</b>; items", "; items: <b>0"),
    ("<th scope=col>3<br><small>20 Jan</small></th>", "20 Jan 25"),
    ("; safety stock: 5; on hand: 12</p>", "lead time in shop days"),
]

# Texts that are no day, and how a page of them ends.
NO_DAYS = [
    (["page"], "", 1, "wrong: shape\n"),
    (["page"], "[items]\n", 1, "wrong: shape\n"),
    (["page", "--run", "9"], "[history]\n", 1, "wrong: shape\n"),
]

LONG_FRONT = """[history]
entry,desk,call,item,week,quantity,number,reply,value
1,1,run,,,,,front,1
[run]
front,standing
1,0
[promises]
item,week,firm,booked,bucket,available
[plan]
item,week,gross,open,firm,planned,start,balance
"""

# The last two items have messages: one has an order to release, the other a receipt to cancel.
LONG_BACK = """URGENT,1,9,0,0,9,9,0
LAST,1,0,0,0,0,0,7
[orders]
item,order,kind,due,quantity,start,release,late
URGENT,1,planned,1,9,9,1,0
[pegs]
item,week,need,number,parent,line,supply,source,quantity
[messages]
item,supply,source,message,value
URGENT,planned,1,RELEASE,
LAST,open,R1,CANCEL,
[loads]
centre,week,load,capacity,over
"""

# How many items a day has, and what its page then has and lacks: items with messages stand first, and what has no room is counted.
LONG_PAGES = [
    (200, 'id="i-P199"', " not shown</p>"),
    (201, "and 1 more item is not shown", 'id="i-P200"'),
    (20_900, '</ul>\n</section>\n<section class=item id="i-URGENT">\n', "Time-phased record of LAST"),
    (20_900, "Time-phased record of URGENT", 'id="i-P200"'),
    (20_900, '<section class=item id="i-LAST">', "<script"),
    (20_900, "and 20701 more weeks of records are not shown", "orders are not shown"),
    (20_900, "and 20700 more items are not shown", "more messages"),
    (20_900, "No record here", "entries are not shown"),
]


def text_of(path):
    with open(path, encoding="utf-8", newline="") as held:
        return held.read()


def long_day(items):
    """A day of so many items over one week."""
    rows = "".join(f"P{item},1,0,0,0,0,0,0\n" for item in range(2, items))
    return f"{LONG_FRONT}{rows}{LONG_BACK}"


@dataclass
class Said:
    """Words and an input, and how they end: the status, and what is told of the output and of standard error: the whole, or texts that
    are in the output and texts that are not."""

    name: str
    words: list
    status: int
    out: str = None
    error: str = ""  # (None: it is not compared)
    given: str = ""
    has: list = field(default_factory=list)
    lacks: list = field(default_factory=list)
    # Whether standard error is compared by its first line alone; the end of what is written to, if it is not standard error.
    by_line: bool = False
    errors: object = subprocess.PIPE
    # Whether the last line of standard error is a hint, where that is told.
    hint: bool = None

    def fault(self, program):
        """What is not as it must be, if anything is."""
        ended = subprocess.run(
            [program, *self.words], input=self.given.encode(), stdout=subprocess.PIPE, stderr=self.errors, timeout=SECONDS, check=False
        )
        out, error = ended.stdout.decode(), (ended.stderr or b"").decode()
        if self.hint not in (None, error.rpartition("\n")[0].rpartition("\n")[2].startswith("hint: ")):
            return f"standard error has '{error}'"
        if self.by_line:
            error = error.partition("\n")[0]
        if ended.returncode != self.status:
            return f"status {ended.returncode}, and not {self.status}"
        if self.out is not None and out != self.out:
            return f"'{out[:200]}' is written, and not '{self.out[:200]}'"
        if self.error not in (None, error):
            return f"standard error has '{error}', and not '{self.error}'"
        lacking = [text for text in self.has if text not in out]
        return f"'{lacking[0]}' is missing" if lacking else next((f"'{text}' is there" for text in self.lacks if text in out), None)


def usage_cases():
    given = text_of(BUNDLE)
    for words, line in WRONG:
        yield Said(f"wrong words: mrp {words}", words.split(), 2, "", f"error: {line}", given, by_line=True)


def hint_cases():
    for words in STRAY + NO_STRAY:
        yield Said(f"a hint after mrp {words}", words.split(), 2, "", None, hint=words in STRAY)


def help_cases():
    for command, own in HELP.items():
        other = HELP["live" if command == "plan" else "plan"]
        for words in (f"{command} --help", f"help {command}"):
            has = ["mrp plan < shop.bundle", own]
            yield Said(f"mrp {words.strip()}", words.split(), 0, has=has, lacks=[other])
    told = "mrp 0.1.0 (proved with rattle-kit-13f)\n"
    yield Said("mrp -V", ["-V"], 0, told)
    yield Said("mrp --version", ["--version"], 0, told)


def day_cases():
    """The bundle's one day, whoever works."""
    given, day = text_of(BUNDLE), text_of(DAY)
    for words in ("plan --workers 1", "plan --workers 64", "plan --workers=08", "live", "live --workers 64", "live --workers=08"):
        yield Said(f"a day: mrp {words}", words.split(), 0, day, given=given)


def fill(path, size):
    with open(path, "wb") as held:
        held.truncate(size)


def lay_folders(room):
    """Folders that can't be read: no files; a file; whose calendar is a folder, or a link to itself; a table that is too long for a bundle;
    two that are too long together; one that leaves no room for its section line."""
    at = {name: os.path.join(room, f"odd-{name}") for name in ("nowhere", "file", "shut", "loop", "long", "both", "full")}
    for name in ("shut", "loop", "long", "both", "full"):
        os.mkdir(at[name])
    os.mkdir(os.path.join(at["shut"], "calendar.csv"))
    os.symlink("calendar.csv", os.path.join(at["loop"], "calendar.csv"))
    fill(at["file"], 1)
    fill(os.path.join(at["long"], "items.csv"), MOST + 1)
    fill(os.path.join(at["both"], "items.csv"), MOST)
    fill(os.path.join(at["both"], "stock.csv"), 1)
    fill(os.path.join(at["full"], "calendar.csv"), MOST)
    return at


def folder_cases(room):
    """The input is no bundle and no day, and is not read."""
    at = lay_folders(room)
    shut = {name: at[name] for name in ("shut", "loop", "long", "both", "full")} | {"of a name too long": "a" * 300}
    for name, folder in shut.items():
        for command in ("plan", "check"):
            yield Said(f"{command}: a folder that is {name}", [command, "--dir", folder], 4, "", READ_FAILED, "no bundle")
    for command in ("plan", "check", "page", "live"):
        words = [command, "--dir", at["nowhere"]]
        error = MISSING.strip()
        yield Said(f"{command}: a folder that is not there", words, 1, "", error, text_of(DAY), by_line=True)
    yield Said("plan: a file of one byte as a folder", ["plan", "--dir", at["file"]], 1, "", MISSING.strip(), by_line=True)


def unheard_cases(full):
    """No status depends on whether standard error takes what is said."""
    given, day = text_of(BUNDLE), text_of(DAY)
    for command in ("plan", "live"):
        yield Said(f"{command}, unheard", [command], 0, day, given=given, errors=full)
        yield Said(f"{command} of nothing, unheard", [command], 1, "", errors=full)
    yield Said("wrong words, unheard", ["plan", "--workers", "0"], 2, "", given=given, errors=full)
    yield Said("help, unheard", ["--help"], 0, has=[HELP[""]], errors=full)


def page_of(name, words, given, has, lacks):
    return Said(f"a page {name}", words, 0, given=given, has=["<!doctype html>\n", has, "</html>\n"], lacks=[lacks])


def page_cases(room):
    day, tables = text_of(DAY), os.path.join(room, "welded")
    with open(WELDED, "rb") as held:
        lay_bytes(held.read(), tables)
    welded = text_of(os.path.join(DATA, "bicycles-in-lots-with-a-work-centre.day"))
    for words, has, lacks in PAGES:
        yield page_of(f"by mrp {' '.join(words)}", words, day, has, lacks)
    for has, lacks in FACTS:
        yield page_of(f"with tables, and '{has}'", ["page", "--dir", tables], welded, has, lacks)
    for items, has, lacks in LONG_PAGES:
        yield page_of(f"of {items} items, and '{has}'", ["page"], long_day(items), has, lacks)
    for words, text, status, error in NO_DAYS:
        yield Said(f"a page of '{text}' by mrp {' '.join(words)}", words, status, "", error, text)
    yield Said("a page of a run that is not there", ["page", "--run", "2"], 2, "", "no such run\n", day)
    yield Said("a page with the tables of another day", ["page", "--dir", tables], 1, "", "wrong: tables\n", long_day(4))


def word_cases(room, full):
    """All cases, with folders in a room, and an error stream that fails."""
    return [*usage_cases(), *hint_cases(), *help_cases(), *day_cases(), *folder_cases(room), *unheard_cases(full), *page_cases(room)]
