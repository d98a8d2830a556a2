"""Days and the tables whose dates they are given."""

import codecs
import os
import shutil
import unittest

from ..agreement import agreeing
from ..day import parts_of_run, read_parts, rows_of
from ..sections import RUN_SECTIONS
from ..tables import SECTION_LINE, Tables
from .made_up import BICYCLE, DAY, TOP, InAFolder, all_days, read

SERVICE = os.path.join(TOP, "crates", "mrp_cases", "data", "bicycles-in-lots-with-service-wheels-as-files")
FRONT = "export: the day is not of these tables: "


class OfTheirTables(InAFolder):
    def lay_tables(self, bundle):
        """The tables of a bundle, byte for byte."""
        for name in os.listdir(self.path("shop")):
            os.remove(self.path("shop", name))
        cut = SECTION_LINE.split(read(bundle).removeprefix(codecs.BOM_UTF8))
        for table, text in zip(cut[1::2], cut[2::2]):
            self.lay(f"shop/{table.decode()}.csv", text)
        return self.path("shop")

    def look(self, day, folder):
        """Looks at all runs of a day: how many there are."""
        tables = Tables(folder)
        with open(day, "rb") as held:
            parts = read_parts(held)
            runs = range(1, 1 + len(parts) // len(RUN_SECTIONS))
            for part in [part for run in runs for part in parts_of_run(parts, run)]:
                for _ in agreeing(part, rows_of(held, part), tables):
                    pass
        return len(runs)

    def test_the_worked_days(self):
        """No day is refused with the tables that it was planned of, whatever their form and version."""
        os.mkdir(self.path("shop"))
        runs = []
        for day in all_days():
            with self.subTest(day):
                bundle, files = day.replace(".day", ".bundle"), day.replace(".day", ".files")
                runs.append(self.look(day, files if os.path.isdir(files) else self.lay_tables(bundle)))
        self.assertGreater(len(runs), 500)
        self.assertGreater(sum(count > 1 for count in runs), 50)

    def test_tables_joined_in_one_file(self):
        os.mkdir(self.path("shop"))
        bundle = read(os.path.join(TOP, "shops", "bicycle.bundle"))
        self.lay("shop/calendar.csv", bundle.partition(b"[calendar]\n")[2])
        self.assertTrue(bundle.startswith(b"[calendar]\n"))
        self.assertEqual(self.look(DAY, self.path("shop")), 1)

    def test_many_zeros_in_front(self):
        shutil.copytree(BICYCLE, self.path("shop"))
        for table, old in (
            ("calendar", "weeks,6"),
            ("centres", "WELD,20"),
            ("master", "firm,2025-01-20,20"),
            ("script", "3,25"),
        ):
            text = read(self.path("shop", f"{table}.csv")).decode()
            self.assertIn(old, text)
            front, comma, number = old.rpartition(",")
            self.lay(f"shop/{table}.csv", text.replace(old, f"{front}{comma}{'0' * 200_000}{number}"))
        self.assertEqual(self.look(DAY, self.path("shop")), 1)

    def test_calls_that_came_since(self):
        shutil.copytree(BICYCLE, self.path("shop"))
        with open(self.path("shop", "script.csv"), "a", encoding="utf-8") as script:
            script.write("3,book,BIKE,2025-02-10,1,\n1,ask,BIKE,2025-02-10,,\n")
        self.assertEqual(self.look(DAY, self.path("shop")), 1)

    def test_calls_of_desks_in_another_order(self):
        """A live day has each desk's calls in their order, and no more of an order."""
        old, new = (
            b"2,1,book,BIKE,5,25,,booked,2\n3,2,ask,BIKE,1,,,",
            b"2,2,ask,BIKE,1,,,available,10\n3,1,book,BIKE,5,25,,booked,3",
        )
        day = read(DAY).replace(old + b"available,10\n", new + b"\n")
        self.assertNotEqual(day, read(DAY))
        self.assertEqual(self.look(self.lay("day", day), BICYCLE), 1)


class OfOtherTables(InAFolder):
    def refused(self, shop, day, table, *changes):
        """What is said of a day with a shop's tables of which one has texts changed."""
        shutil.rmtree(self.path("shop"), ignore_errors=True)
        shutil.copytree(shop, self.path("shop"))
        text = read(self.path("shop", f"{table}.csv")).decode()
        for old, new in changes:
            self.assertIn(old, text)
            text = text.replace(old, new)
        self.lay(f"shop/{table}.csv", text)
        said = self.refuses(day, self.path("to"), "--dir", self.path("shop"))
        self.assertTrue(said.startswith(FRONT), said)
        self.assertEqual(said.count("\n"), 2)
        return said.removeprefix(FRONT).partition("\n")[0]

    def test_of_the_bicycle_shop(self):
        for table, changes, said in (
            (
                "calendar",
                [("start,2025-01-06", "start,2025-01-13")],
                "script.csv, record 3: 2025-01-06 is not in their 6 weeks",
            ),
            (
                "calendar",
                [("start,2025-01-06", "start,2024-12-30"), ("weeks,6", "weeks,7")],
                "line 3, [history]: call book, item BIKE, week 3, quantity 12; they have call book, item BIKE, week 4, quantity 12",
            ),
            ("calendar", [("weeks,6", "weeks,7")], "line 21, [promises]: none; they have item BIKE, week 7, firm 0"),
            (
                "calendar",
                [("2025-01-20", "2025-01-27")],
                "line 86, [loads]: centre WELD, week 3, capacity 80.000; they have centre WELD, week 3, capacity 100.000",
            ),
            (
                "items",
                [("WHEEL,part", "TYRE,part")],
                "line 35, [plan]: item WHEEL, week 1, open 0, firm 0; they have item TYRE, week 1, open 0, firm 0",
            ),
            (
                "master",
                [("firm,2025-01-20,20", "firm,2025-01-20,21")],
                "line 17, [promises]: item BIKE, week 3, firm 20; they have item BIKE, week 3, firm 21",
            ),
            (
                "receipts",
                [("2025-01-22", "2025-01-29")],
                "line 31, [plan]: item FRAME, week 3, open 15, firm 0; they have item FRAME, week 3, open 0, firm 0",
            ),
            (
                "script",
                [("2025-01-20,12", "2025-01-27,12")],
                "line 3, [history]: call book, item BIKE, week 3, quantity 12; they have call book, item BIKE, week 4, quantity 12",
            ),
            (
                "centres",
                [("WELD,20", "WELD,21")],
                "line 84, [loads]: centre WELD, week 1, capacity 100.000; they have centre WELD, week 1, capacity 105.000",
            ),
            (
                "centres",
                [("WELD,20", "WELD,20\nSAW,1")],
                "line 90, [loads]: none; they have centre SAW, week 1, capacity 5.000",
            ),
        ):
            with self.subTest(table=table, changes=changes):
                self.assertEqual(self.refused(BICYCLE, DAY, table, *changes), said)

    def test_days_that_are_not_of_them(self):
        """Each section has to agree with the tables, also where the ones before it do."""
        for old, new, said in (
            (
                "7,1,run,,,,,front,7\n",
                "7,1,cancel,,,,1,cancelled,\n",
                "line 9, [history]: call cancel, number 1; they have none",
            ),
            ("6,1,ask,BIKE,3", "6,3,ask,BIKE,3", "line 8, [history]: call ask, item BIKE, week 3; they have none"),
            (
                "6,1,ask,BIKE,3",
                "6,1,when,BIKE,",
                "line 8, [history]: call when, item BIKE; they have call ask, item BIKE, week 3",
            ),
            ("BIKE,6,0,0,0,3\n", "", "line 20, [promises]: none; they have item BIKE, week 6, firm 0"),
            ("BIKE,6,0,0,0,3\n", "BIKE,6,0,0,0,3\n" * 2, "line 21, [promises]: item BIKE, week 6, firm 0; they have none"),
            (
                "firm,5,20,20,4,0",
                "firm,6,20,20,4,0",
                "line 45, [orders]: item BIKE, kind firm, due 6, quantity 20; they have item BIKE, kind firm, due 5, quantity 20",
            ),
            ("BIKE,4,forecast", "BIKE,3,forecast", "line 56, [pegs]: need forecast, item BIKE, week 3; they have none"),
            (
                "WHEEL,3,service,5",
                "WHEEL,4,service,5",
                "line 71, [pegs]: need service, item WHEEL, week 4, number 5; they have need service, item WHEEL, week 3, number 5",
            ),
            (
                "WHEEL,3,service,5",
                "WHEEL,3,service,6",
                "line 71, [pegs]: need service, item WHEEL, week 3, number 6; they have none",
            ),
            ("BIKE,firm,3,IN,4", "BIKE,firm,3,IN,7", "line 80: week 7 is not in their 6 weeks"),
            (
                "WELD,1,",
                "SAW,1,",
                "line 88, [loads]: centre SAW, week 1, capacity 100.000; they have centre WELD, week 1, capacity 100.000",
            ),
        ):
            with self.subTest(new):
                day = read(f"{SERVICE}.day").decode()
                self.assertEqual(day.count(old), 1)
                bad = self.lay("day", day.replace(old, new))
                all_said = self.refuses(bad, self.path("to"), "--dir", f"{SERVICE}.files")
                self.assertEqual(all_said, f"{FRONT}{said}\nexport: nothing is written\n")


if __name__ == "__main__":
    unittest.main()
