"""The counts of a day, beside those that the page of the day has."""

import glob
import io
import os
import re
import unittest

from ..drp import Shipment
from ..summary import last_run, summary_of
from .made_up import SITES

DRAWN = os.path.join(os.path.dirname(SITES), "crates", "mrp_cases", "data", "*.drawn")
ORDERS = "item,order,kind,due,quantity,start,release,late"
PEGS = "item,week,need,number,parent,line,supply,source,quantity"


def day_of(orders, pegs, loads=()):
    """A day of these orders, pegs and loads, all else empty."""
    rows = {"orders": orders, "pegs": pegs, "loads": loads}
    heads = {
        "history": "entry,desk,call,item,week,quantity,number,reply,value",
        "run": "front,standing",
        "promises": "item,week,firm,booked,bucket,available",
        "plan": "item,week,gross,open,firm,planned,start,balance",
        "orders": ORDERS,
        "pegs": PEGS,
        "messages": "item,supply,source,message,value",
        "loads": "centre,week,load,capacity,over",
    }
    return io.BytesIO("".join("\n".join([f"[{name}]", head, *rows.get(name, []), ""]) for name, head in heads.items()).encode())


class Counts(unittest.TestCase):
    def test_those_of_pages(self):
        days = glob.glob(DRAWN)
        self.assertGreater(len(days), 5)
        seen = 0
        for path in days:
            with open(path.removesuffix(".drawn") + ".html", encoding="utf-8") as held:
                tiles = {what: int(count) for count, what in re.findall(r"<b>(\d+)</b>([^<]+)</a>", held.read())}
            with self.subTest(path), open(path, "rb") as held:
                told = summary_of(last_run(held), [], set())
                self.assertEqual((told.unpromised, told.past_due), (tiles["not promised"], tiles["past due"]))
                if "at risk" in tiles:
                    self.assertEqual(told.at_risk, tiles["at risk"])
                    seen += tiles["at risk"]
        self.assertGreater(seen, 2)

    def test_through_any_number_of_orders(self):
        orders = ["M,1,firm,3,5,5,3,0", "M,2,planned,4,5,5,3,0", '"A,B",1,planned,3,5,5,2,0', "C,1,planned,2,5,5,1,2"]
        pegs = [
            "M,3,booking,7,,,firm,1,4",
            "M,4,booking,8,,,planned,2,4",
            "M,3,forecast,,,,firm,1,1",
            '"A,B",3,parent,1,M,1,planned,1,5',
            '"A,B",3,parent,2,M,1,stock,,5',
            'C,2,parent,1,"A,B",2,planned,1,5',
        ]
        told = summary_of(last_run(day_of(orders, pegs)), [], {"M"})
        self.assertEqual((told.at_risk, told.late_supply), (1, 1))
        self.assertEqual(summary_of(last_run(day_of(orders, pegs)), [], set()).late_supply, 0)
        on_time = [*orders[:3], "C,1,planned,2,5,5,1,0"]
        self.assertEqual(summary_of(last_run(day_of(on_time, pegs)), [], {"M"}).at_risk, 0)

    def test_overloads(self):
        loads = ["C,1,10.000,60.000,0.000", "C,2,61.500,60.000,1.500", "D,1,60.001,60.000,0.001", "D,2,60.000,60.000,0.000"]
        self.assertEqual(summary_of(last_run(day_of([], [], loads)), [], set()).overloads, 2)

    def test_the_last_of_two_runs(self):
        one, other = (day_of([], [], [f"C,1,{load}.000,60.000,{load - 60}.000"]).read() for load in (70, 60))
        day = io.BytesIO(one + other[other.index(b"[run]") :])
        self.assertEqual(list(last_run(day)("loads")), [["C", "1", "60.000", "60.000", "0.000"]])

    def test_shipments(self):
        found = [Shipment("A", None, "M", None, 1, note) for note in ("", "early 3", "beyond", "early 1")]
        told = summary_of(last_run(day_of([], [])), found, set())
        self.assertEqual((told.early, told.beyond), (2, 1))
