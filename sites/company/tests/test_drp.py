"""What sites release, and what their suppliers make of it."""

import csv
import datetime
import io
import os
import random
import unittest
from unittest.mock import patch

from export_day.weeks import WEEK, Calendar
from whole_files import Refused

from .. import drp
from ..links import Link, read_links
from ..summary import last_run
from ..tables import Tables, text_of
from .made_up import EXAMPLE

D = datetime.date.fromisoformat


def rows_in(data):
    return list(csv.reader(io.StringIO(data.decode("latin-1"), newline="")))


def expected(site, name):
    with open(os.path.join(EXAMPLE, "expected", site, name), "rb") as held:
        return held.read()


class Example(unittest.TestCase):
    """The example of three sites, by the days that are expected of it."""

    def releases(self, site, items):
        tables = Tables.read(os.path.join(EXAMPLE, "sites", site))
        with open(os.path.join(EXAMPLE, "expected", site, "day"), "rb") as held:
            return drp.releases_in(last_run(held)("orders"), items, tables.calendar())

    def test_releases(self):
        for site in ("NORTH", "SOUTH"):
            self.assertEqual(drp.releases_text(self.releases(site, {"MOTOR"})), expected(site, "releases.csv"))
        self.assertEqual(drp.releases_text(self.releases("NORTH", set())), expected("EAST", "releases.csv"))

    def test_forecast(self):
        with open(os.path.join(EXAMPLE, "links.csv"), "rb") as held:
            links, faults = read_links(held.read())
        self.assertEqual(faults, [])
        tables = Tables.read(os.path.join(EXAMPLE, "sites", "EAST"))
        releases = {site: self.releases(site, {"MOTOR"}) for site in ("NORTH", "SOUTH")}
        found = drp.shipments(links, releases.__getitem__, tables.calendar())
        self.assertEqual(drp.shipments_text(found), expected("EAST", "drp.csv"))
        self.assertEqual(drp.master_text(tables, links, found), expected("EAST", "master.csv"))


class Rules(unittest.TestCase):
    def setUp(self):
        self.calendar = Calendar(D("2025-01-06"), 4, [0, 1, 2, 3, 4], set())
        self.link = Link(2, "NORTH", "MOTOR", "EAST", "M1", 2, False)

    def ship(self, date, start=9):
        return drp.shipment(self.link, drp.Release("MOTOR", "1", D(date), start, "0"), self.calendar)

    def test_weeks(self):
        found = map(self.ship, ("2025-01-13", "2025-01-20", "2025-02-10", "2025-02-17"))
        told = [(it.date.isoformat(), it.week, it.note) for it in found]
        wanted = [("2024-12-30", 1, "early 1"), ("2025-01-06", 1, ""), ("2025-01-27", 4, ""), ("2025-02-03", None, "beyond")]
        self.assertEqual(told, wanted)

    def test_planned_orders_of_bought_items_alone(self):
        orders = [
            ["MOTOR", "1", "firm", "2", "9", "9", "1", "0"],
            ["MOTOR", "2", "planned", "2", "9", "10", "1", "1"],
            ["PUMP", "1", "planned", "2", "9", "10", "1", "1"],
        ]
        found = drp.releases_in(orders, {"MOTOR"}, self.calendar)
        self.assertEqual([it.row() for it in found], [("MOTOR", "2", "2025-01-06", "10", "1")])

    def test_great_sums_have_several_rows(self):
        found = [self.ship("2025-01-20", 10**9), self.ship("2025-01-20", 10**9 + 7)]
        rows = list(drp.forecast_rows(found, {"M1": "master"}, self.calendar))
        self.assertEqual([row[3] for row in rows], ["1000000000", "1000000000", "7"])
        self.assertEqual({row[:3] for row in rows}, {("M1", "forecast", "2025-01-06")})

    def test_rows_are_in_the_order_of_items_and_weeks(self):
        release, places = drp.Release("P", "1", None, 5, "0"), (("A", 2), ("Z", 3), ("Z", 1))
        shipped = [drp.Shipment("A", release, item, None, week, "") for item, week in places]
        rows = list(drp.forecast_rows(shipped, {"Z": "master", "A": "master"}, self.calendar))
        self.assertEqual([(row[0], row[2]) for row in rows], [("Z", "2025-01-06"), ("Z", "2025-01-20"), ("A", "2025-01-13")])

    def supplier(self, **changed):
        """The tables of EAST in the example, some of them changed."""
        return Tables({**Tables.read(os.path.join(EXAMPLE, "sites", "EAST")).files, **changed})

    def test_too_many_rows_beside_the_own(self):
        tables, found = self.supplier(), [self.ship("2025-01-20"), self.ship("2025-01-27")]
        with patch.object(drp, "MOST_RECORDS", 3):
            self.assertEqual(drp.master_text(tables, [self.link], found).count(b"\n"), 4)
        with patch.object(drp, "MOST_RECORDS", 2), self.assertRaisesRegex(Refused, "^master.csv: more than 2 rows"):
            drp.master_text(tables, [self.link], found)

    def test_what_other_sites_buy_is_a_master_item(self):
        tables = self.supplier(items=self.supplier().files["items"].replace(b"M1,master", b"M1,part"))
        with self.assertRaisesRegex(Refused, "^items.csv: M1 is no master item, and other sites buy it"):
            drp.master_text(tables, [self.link], [])

    def test_too_many_rows(self):
        with self.assertRaises(Refused):
            list(drp.forecast_rows([self.ship("2025-01-20", 10**15)], {"M1": "master"}, self.calendar))

    def test_replaced_rows_keep_their_numbers(self):
        links = [Link(2, "NORTH", "MOTOR", "EAST", "M1", 0, True)]
        data = b'item,row,date,quantity\nM1,firm,2025-01-06,5\n\nM1,forecast,2025-01-07,3\n"A,B",forecast,2025-01-07,4\nM1,x\n'
        tables = Tables({"master": data})
        made = [tuple(row) for row in drp.own_rows(tables.records("master"), links)]
        wanted = [("M1", "firm", "2025-01-06", "5"), ("M1", "forecast", "2025-01-07", "0")]
        self.assertEqual(made, [*wanted, ("A,B", "forecast", "2025-01-07", "4"), ("M1", "x")])
        self.assertEqual(list(drp.own_rows(tables.records("master"), [self.link]))[1][3], "3")

    def test_a_version_in_the_calendar(self):
        for version in ("", "version,2\n", "version,3\n"):
            tables = Tables({"calendar": f"key,value\n{version}start,2025-01-06\nweeks,4\nworkdays,1111100\n".encode()})
            self.assertEqual((tables.calendar().start, tables.calendar().weeks), (D("2025-01-06"), 4))

    def test_more_than_one_table_in_a_file(self):
        own = self.supplier().files["master"]
        for table, data in (
            ("master", own + b"[stock]\nitem,onhand\n"),
            ("items", b"item,class\n"),
            ("items", b""),
            ("script", None),  # (it may stand in another table's file, where no booking is seen)
        ):
            with self.assertRaisesRegex(Refused, f"^{table}.csv: expected a file with this table alone"):
                drp.master_text(self.supplier(**{table: data}), [self.link], [])


class AtRandom(unittest.TestCase):
    """Releases of three sites at random to a fourth; the other way to find a week is to look at each in turn."""

    def setUp(self):
        self.draw = random.Random(43)

    def site(self):
        return Calendar(D("2025-01-06") + self.draw.randint(-4, 4) * WEEK, self.draw.randint(1, 12), [0], set())

    def test_sums_are_kept(self):
        beyond = early = 0
        for _ in range(200):
            told = self.try_one()
            beyond, early = beyond + told[0], early + told[1]
        self.assertGreater(min(beyond, early), 1000)

    def links(self):
        modes = {f"I{number}": self.draw.random() < 0.5 for number in range(4)}
        for site in "ABC":
            for number in range(5):
                if self.draw.random() < 0.6:
                    item = f"I{self.draw.randrange(4)}"
                    yield Link(0, site, f"P{number}", "S", item, self.draw.randint(0, 5), modes[item])

    def try_one(self):
        links, supplier = list(self.links()), self.site()
        releases = {site: self.releases(site, links) for site in "ABC"}
        classes = {f"I{number}": "master" for number in range(4)}
        found = drp.shipments(links, releases.__getitem__, supplier)
        rows = rows_in(text_of(drp.forecast_rows(found, classes, supplier)))
        self.assertEqual(rows, sorted(rows, key=lambda row: (row[0], row[2])))
        want, pieces, beyond, early = self.by_hand(links, releases, supplier)
        got = {}
        for item, kind, date, quantity in rows:
            self.assertTrue(kind == "forecast" and 0 < int(quantity) <= 10**9)
            got[item, date] = got.get((item, date), 0) + int(quantity)
        self.assertEqual(got, want)
        self.assertEqual(sum(got.values()) + beyond, pieces)
        self.assertEqual(sum(it.release.start for it in found), pieces)
        self.assertEqual(sum(it.release.start for it in found if it.note == "beyond"), beyond)
        self.assertEqual(sum(it.release.start for it in found if it.note.startswith("early")), early)
        return beyond, early

    def releases(self, site, links):
        bought = {link.item for link in links if link.site == site}
        return drp.releases_in(list(self.orders()), bought, self.site())

    def orders(self):
        for number in range(5):
            for order in range(1, self.draw.randint(1, 6)):
                kind = self.draw.choice(["planned"] * 4 + ["firm"])
                start = str(self.draw.choice([0, self.draw.randint(1, 99), 3 * 10**9]))
                yield [f"P{number}", str(order), kind, "1", start, start, str(self.draw.randint(1, 3)), "0"]

    def by_hand(self, links, releases, supplier):
        want, pieces, beyond, early = {}, 0, 0, 0
        for link in links:
            for release in releases[link.site]:
                if release.item != link.item:
                    continue
                ship, pieces = release.date - link.transit * WEEK, pieces + release.start
                mondays = [supplier.start + week * WEEK for week in range(supplier.weeks)]
                at = next((monday for monday in mondays if monday <= ship < monday + WEEK), None)
                if at is None and ship < mondays[0]:
                    at, early = mondays[0], early + release.start
                if at is None:
                    beyond += release.start
                else:
                    key = (link.supplier_item, at.isoformat())
                    want[key] = want.get(key, 0) + release.start
        return want, pieces, beyond, early
