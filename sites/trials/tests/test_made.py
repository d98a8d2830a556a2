"""Companies that are made to be tried."""

import filecmp
import os
import shutil
import tempfile
import unittest

from company.company import read_company
from company.site import FILES

from ..made import make_company
from ..nights import digests


class Plans(unittest.TestCase):
    def test_bytes_of_plans(self):
        with tempfile.TemporaryDirectory() as top:
            plan = os.path.join(top, "out", "A", "plan")
            os.makedirs(os.path.join(plan, "tables"))
            os.makedirs(os.path.join(top, "sites", "A"))
            found = []
            for name in ("tables/stock.csv", *(name for name in FILES if name != "tables")):
                found.append(digests(top)["A"])
                with open(os.path.join(plan, name), "w", encoding="utf-8") as held:
                    held.write(name)
            self.assertEqual(set(found), {""})  # (no plan is whole so far)
            whole = digests(top)["A"]
            with open(os.path.join(plan, "tables", "stock.csv"), "w", encoding="utf-8") as held:
                held.write("another")
            self.assertNotIn("", (whole, digests(top)["A"]))
            self.assertNotEqual(digests(top)["A"], whole)


class Made(unittest.TestCase):
    def setUp(self):
        self.top = tempfile.mkdtemp()
        self.addCleanup(shutil.rmtree, self.top)

    def test_links_are_right_and_four_deep(self):
        for sites in (5, 20, 33):
            make_company(f"{self.top}/{sites}", sites, 80)
            company = read_company(f"{self.top}/{sites}")
            self.assertEqual((company.faults, len(company.names), max(company.tier.values())), ([], sites, 4))

    def test_the_same_numbers_give_the_same_bytes(self):
        for name in ("one", "other"):
            make_company(f"{self.top}/{name}", 5, 80)
        for place, _, files in os.walk(f"{self.top}/one"):
            other = place.replace("/one", "/other", 1)
            self.assertEqual(filecmp.cmpfiles(place, other, files, shallow=False)[1:], ([], []))
