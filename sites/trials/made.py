"""Companies that are made to be tried.

Sites stand on five tiers, so that links are four deep: each site buys ten of its parts from two sites of the next tier, where they
are master items. Calendars begin on different Mondays and have 22 to 30 weeks. The same numbers give the same bytes.
"""

import datetime
import os
import random

from company.links import COLUMNS as LINK_COLUMNS
from company.tables import text_of
from shop_maker.shop import COLUMNS

TIERS, BOUGHT, OWN, MOST_SOLD, CENTRES, CALLS = 5, 10, 20, 12, 12, 40
MONDAY = datetime.date(2025, 1, 6)


def write_table(path, header, rows):
    with open(path, "wb") as held:
        held.write(text_of([header.split(","), *rows]))


class Shop:
    """The tables of a site at random: master items for customers (M) and for other sites (S), made parts (A), parts bought from other
    sites (B) and elsewhere (R)."""

    def __init__(self, draw, items, sold, bought):
        self.draw = draw
        self.start, self.weeks = MONDAY + datetime.timedelta(weeks=draw.choice([-1, 0, 0, 0, 1])), draw.randint(22, 30)
        self.own = [f"M{number:03}" for number in range(OWN)]
        self.masters = self.own + [f"S{number:03}" for number in range(sold)]
        self.bought = [f"B{number:03}" for number in range(bought)]
        left = max(items - len(self.masters) - bought, 8)
        self.made = [f"A{number:03}" for number in range(left // 2)]
        self.leaves = self.bought + [f"R{number:03}" for number in range(left - left // 2)]
        self.centres = [f"C{number:02}" for number in range(CENTRES)]

    def date(self, week):
        return (self.start + datetime.timedelta(days=7 * (week - 1) + self.draw.randint(0, 6))).isoformat()

    def tables(self):
        told = {"calendar": self.calendar(), "items": self.items(), "bills": self.bills(), "routings": self.routings()}
        told["centres"] = [(centre, self.draw.randint(300, 1500)) for centre in self.centres]
        told["stock"] = [(item, self.draw.randint(0, 80)) for item in (*self.masters, *self.made, *self.leaves)]
        told["receipts"] = [
            (part, "R1", self.date(self.draw.randint(1, 4)), self.draw.randint(1, 60))
            for part in (*self.made, *self.leaves)
            if self.draw.random() < 0.3
        ]
        return {**told, "master": self.master(), "script": self.script()}

    def calendar(self):
        holiday = (self.start + datetime.timedelta(days=28)).isoformat()
        return [("start", self.start.isoformat()), ("weeks", self.weeks), ("workdays", "1111100"), ("holiday", holiday)]

    def items(self):
        rows = [(item, "master", self.draw.randint(0, 2), 0, "lfl", 0, 0) for item in self.masters]
        for part in (*self.made, *self.leaves):
            lot = self.draw.choice(["lfl", "fixed", "period"])
            size = {"lfl": 0, "fixed": self.draw.randint(10, 60), "period": self.draw.randint(1, 4)}[lot]
            scrap, safety = self.draw.choice([0, 0, 0, 20, 50]), self.draw.choice([0, 0, 10])
            rows.append((part, "part", self.draw.randint(0, 2), scrap, lot, size, safety))
        return rows

    def bills(self):
        """Masters are made of the first half of the made parts, these of the second; each takes bought parts too."""
        half, rows = len(self.made) // 2, []

        def line(parent, components):
            rows.extend((parent, component, self.draw.randint(1, 2)) for component in components)

        for item in self.masters:
            line(item, self.draw.sample(self.made[:half], min(4, half)) + self.draw.sample(self.leaves, 2))
        for number, part in enumerate(self.made):
            below = self.draw.sample(self.made[half:], 2) if number < half else []
            line(part, below + self.draw.sample(self.leaves, 2))
        used = {component for _, component, _ in rows}
        return rows + [(self.draw.choice(self.own), part, 1) for part in self.bought if part not in used]

    def routings(self):
        rows = [(item, operation) for item in (*self.masters, *self.made) for operation in (10, 20)]
        draw = self.draw
        return [(*row, draw.choice(self.centres), draw.randint(0, 30), draw.randint(0, 2000), 0) for row in rows]

    def master(self):
        rows, draw = [], self.draw
        for item in self.own:
            weeks = range(1, self.weeks + 1)
            rows += [(item, "forecast", self.date(week), draw.randint(1, 20)) for week in weeks if draw.random() < 0.5]
            rows += [(item, "firm", self.date(week), draw.randint(5, 30)) for week in draw.sample(weeks, 3)]
        sold = self.masters[OWN:]
        return rows + [(item, "forecast", self.date(draw.randint(1, self.weeks)), draw.randint(1, 10)) for item in sold]

    def script(self):
        draw = self.draw
        calls = [(draw.randint(1, 4), draw.choice(self.own), draw.randint(1, self.weeks)) for _ in range(CALLS)]
        return [(desk, "book", item, self.date(week), draw.randint(1, 15), "") for desk, item, week in calls]


def links_of(draw, names, tier):
    """The rows of the links, and how many items each site sells."""
    rows, sold = [], dict.fromkeys(names, 0)
    for site in names:
        below = [name for name in names if tier[name] == tier[site] + 1]
        sources = draw.sample(below, min(2, len(below)))
        for number in range(BOUGHT if sources else 0):
            source = sources[number % len(sources)]
            item = sold[source] if sold[source] < MOST_SOLD else draw.randrange(MOST_SOLD)
            sold[source] = max(sold[source], item + 1)
            mode = "replace" if item % 2 else "add"
            rows.append((site, f"B{number:03}", source, f"S{item:03}", draw.randint(0, 2), mode))
    return rows, sold


def make_company(folder, count, items, seed=1):
    """Makes the folder of a company of so many sites with so many items each."""
    tier = {f"T{number * TIERS // count}-{number:05}": number * TIERS // count for number in range(count)}
    rows, sold = links_of(random.Random(seed), list(tier), tier)
    buyers = {row[0] for row in rows}
    for name in tier:
        shop = Shop(random.Random(f"{seed} {name}"), items, sold[name], BOUGHT if name in buyers else 0)
        os.makedirs(os.path.join(folder, "sites", name))
        for table, told in shop.tables().items():
            write_table(os.path.join(folder, "sites", name, f"{table}.csv"), COLUMNS[table], told)
    write_table(os.path.join(folder, "links.csv"), LINK_COLUMNS, rows)
