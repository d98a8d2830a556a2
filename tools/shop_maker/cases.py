"""The cases at random: their seeds, their names, and what they have to show."""
import os
import re
import subprocess
from collections import Counter
from dataclasses import dataclass

from . import faults, shown
from .dice import Dice
from .shop import FACTORY, SERVICE, SMALL, Shop, shop_of
from .spelling import plain, varied

FAMILIES = {"random-shop": SMALL, "random-factory": FACTORY, "random-service-shop": SERVICE}
COUNTS = {"random-shop": 60, "random-factory": 60, "random-service-shop": 40}
# A name has so many words of what its shop shows, the rarest first.
WORDS = 3
COMMON = {"one-run"}
# Each of these is shown by so many cases at least.
LEAST = 2
WANTED = {
    "random-shop": ("a-mark", "line-ends-of-two-bytes", "carriage-returns", "no-items", "odd-names", "rows-of-no-pieces", "safety-stock"),
    "random-factory": (
        "two-lines-of-one-pair", "short-answers", "cancelled-bookings", "others-bookings", "no-week", "what-does-not-stand",
        "late-orders", "reschedules", "overloads", "no-centres", "open-receipts", "firm-orders", "surplus", "scrap", "fixed-lots",
        "periods", "safety-stock", "two-runs", "three-runs", "many-runs"),
    "random-service-shop": (
        "service-parts", "minimum-order-quantities", "order-multiples", "rows-of-no-pieces", "late-orders", "reschedules", "overloads",
        "open-receipts", "firm-orders", "surplus", "scrap", "fixed-lots", "periods", "safety-stock", "bookings"),
}


@dataclass(frozen=True)
class Made:
    """A shop of a family by its number, from 1, and its spelling."""
    family: str
    number: int
    shop: Shop
    spelled: bytes

    def begin(self):
        return f"{self.family}-{self.number:02}-"


def made(family, number):
    dice = Dice(number * 1000 + len(family))
    shop = shop_of(dice, FAMILIES[family])
    return Made(family, number, shop, varied(shop, dice) if family == "random-shop" else plain(shop))


def all_made():
    return [made(family, number) for family, count in COUNTS.items() for number in range(1, count + 1)]


def refused():
    """The name and the bundle of each shop with one fault."""
    for table, fault in faults.kinds():
        yield f"random-shop-refused-{table}-{fault}", faults.spoiled_bundle(table, fault)


def planned(program, spelled):
    """The status of a program that plans the bundle, what it writes and what it says."""
    done = subprocess.run([program, "plan"], input=spelled, capture_output=True, check=False)
    return done.returncode, done.stdout, done.stderr


def shows(case, day, said):
    """The words that this case may be named by."""
    if day is None:
        return shown.of_refusal(said.decode())
    return shown.of_tables(case.shop, case.spelled) | shown.of_day(day.decode())


def write(program, folder):
    """Writes every case to a folder: its bundle, and its day or refusal as the program gives it."""
    for family in FAMILIES:
        ends = [(case, *planned(program, case.spelled)) for case in all_made() if case.family == family]
        shown_by = [shows(case, day if status == 0 else None, said) for case, status, day, said in ends]
        often = Counter(word for words in shown_by for word in words)
        for (case, status, day, said), words in zip(ends, shown_by):
            rarest = sorted(words - COMMON, key=lambda word: (often[word], word))[:WORDS]
            put(folder, case.begin() + "-".join(rarest), case.spelled, status, day, said)
    for name, spelled in refused():
        put(folder, name, spelled, *planned(program, spelled))


def put(folder, name, spelled, status, day, said):
    ending, answer = (".day", day) if status == 0 else (".said", said)
    for file, text in ((name + ".bundle", spelled), (name + ending, answer)):
        with open(os.path.join(folder, file), "wb") as out:
            out.write(text)


def read(folder, file):
    path = os.path.join(folder, file)
    if not os.path.exists(path):
        return None
    with open(path, "rb") as text:
        return text.read()


def differences(folder):
    """What is wrong with a folder's random cases, a line each: none where all are as their seeds make them and show what they say."""
    bundles = sorted(file[:-7] for file in os.listdir(folder) if re.fullmatch(r"random-.*\.bundle", file))
    seen = set()
    often = {family: Counter() for family in FAMILIES}
    for case in all_made():
        here = [name for name in bundles if name.startswith(case.begin())]
        seen.update(here)
        if len(here) != 1:
            yield f"{case.begin()}: {len(here)} cases"
            continue
        yield from wrong_with(folder, here[0], case, often[case.family])
    for name, spelled in refused():
        seen.add(name)
        yield from wrong_refusal(folder, name, spelled)
    yield from (f"{name}: no seed makes it" for name in bundles if name not in seen)
    for family, wanted in WANTED.items():
        yield from (f"{word}: shown by {often[family][word]} cases of {family}" for word in wanted if often[family][word] < LEAST)


def wrong_with(folder, name, case, often):
    if read(folder, name + ".bundle") != case.spelled:
        yield f"{name}: its seed makes another bundle"
    day, said = read(folder, name + ".day"), read(folder, name + ".said")
    if (day is None) == (said is None):
        yield f"{name}: no day or refusal, or both"
        return
    words = shows(case, day, said)
    often.update(words)
    rest = "-" + name.removeprefix(case.begin()) + "-"
    for word in sorted(words, key=len, reverse=True):
        rest = rest.replace(f"-{word}-", "-")
    if rest != "-":
        yield f"{name}: does not show {rest.strip('-')}"


def wrong_refusal(folder, name, spelled):
    if read(folder, name + ".bundle") != spelled:
        yield f"{name}: another bundle is made"
    said = read(folder, name + ".said")
    if said is None:
        yield f"{name}: no refusal"
        return
    words = shown.of_refusal(said.decode())
    if name != "random-shop-refused-" + "-".join(sorted(words, key=lambda word: name.find(word))):
        yield f"{name}: refused otherwise, {said.decode().strip()}"
