"""The plans of sites: what is planned again, what is refused, waits and stops, and what stands then."""

import contextlib
import datetime
import errno
import fcntl
import io
import json
import os
import re
from dataclasses import replace
from unittest.mock import patch
from urllib.parse import quote

from .. import site as site_module
from ..batches import BATCHES, batches_of, is_done, lay_batches, plan_batch
from ..company import read_company
from ..drp import Release
from ..index import COUNTS, causes, page_of, refused_states, states_tonight
from ..site import FILES, key_of, plan_site
from ..states import State, Word, write_state
from ..tables import Tables
from .made_up import LINKS, TABLES, InAFolder

CHAIN = "A,X,B,M,0,replace\nB,X,C,M,0,add\n"


class Plans(InAFolder):
    def setUp(self):
        super().setUp()
        self.company = self.lay_company(CHAIN)

    def again(self):
        return self.plan(read_company(self.top))

    def test_what_a_plan_has(self):
        self.assertEqual(self.plan(self.company), "A:planned* B:planned* C:planned* D:planned*")
        self.assertEqual(sorted(os.listdir(self.path("out/B/plan"))), sorted(FILES))
        self.assertEqual(sorted(os.listdir(self.path("out/B"))), ["lock", "plan", "state.json"])
        self.assertEqual(self.read("out/A/plan/releases.csv"), "item,order,date,start,late\nX,1,2025-01-06,7,1\n")
        self.assertEqual(
            self.read("out/B/plan/tables/master.csv"), "item,row,date,quantity\nM,forecast,2025-01-07,0\nM,forecast,2025-01-06,7\n"
        )
        self.assertEqual(self.read("sites/B/master.csv"), TABLES["master"])
        self.assertIn("A,X,1,2025-01-06,7,M,2025-01-06,1,\n", self.read("out/B/plan/drp.csv"))
        self.assertEqual(self.read("out/B/plan/releases.csv"), "item,order,date,start,late\nX,1,2025-01-06,11,1\n")  # (4 + 7)

    def test_what_tells_plans_apart(self):
        night, site = self.night(), self.company.sites["B"]
        tables, link = Tables.read(self.path("sites/B")), site.sells[0]
        released = Release("X", "1", datetime.date(2025, 1, 6), 7, "0")

        def key(site=site, night=night, tables=tables, releases=(released,)):
            return key_of(night, site, tables, {"A": releases, "C": releases})

        told = [key(), key(replace(site, name="D")), key(replace(site, buys=["Y"])), key(night=replace(night, sum="other"))]
        for name, value in (("site", "C"), ("item", "Y"), ("supplier_item", "Y"), ("transit", 1), ("replaces", not link.replaces)):
            other = replace(link, **{name: value})
            told.append(key(replace(site, sells=[other]), releases=(replace(released, item=other.item),)))
        for name, value in (("order", "2"), ("date", datetime.date(2025, 1, 13)), ("start", 8), ("late", "1")):
            told.append(key(releases=(replace(released, **{name: value}),)))
        told += [key(tables=Tables({**tables.files, table: data})) for table in tables.files for data in (b"other", b"", None)]
        self.assertEqual(len(set(told)), len(told))
        self.assertEqual(key(releases=(released, replace(released, item="Y"))), key())  # (Y is not bought here)

    def test_weeks_are_those_of_the_supplier(self):
        self.lay_site("A", calendar="key,value\nstart,2025-01-20\nweeks,4\nworkdays,1111100\n")
        self.assertEqual(self.again(), "A:planned* B:planned* C:planned* D:planned*")
        self.assertIn("A,X,1,2025-01-20,7,M,2025-01-20,3,\n", self.read("out/B/plan/drp.csv"))

    def test_a_plan_that_the_check_finds_wrong(self):
        self.lay_site("B", items=TABLES["items"] + "WRONG,part,0,0,lfl,0,0\n")
        self.assertEqual(self.again(), "A:planned* B:refused* C:waits D:planned*")
        self.assertEqual(self.state("B").why, "wrong: this is not the day")
        self.assertFalse(os.path.exists(self.path("out/B/plan")))

    def test_the_most_memory(self):
        night = replace(self.night(memory=300), program="/bin/sh")
        site_module.run(night, ["-c", "ulimit -d"], self.path("said"))
        self.assertEqual(self.read("said"), f"{300 << 10}\n")

    def test_a_fault_of_ours_stops_one_site_alone(self):
        with patch.object(site_module, "key_of", side_effect=ZeroDivisionError("by none")), patch("traceback.print_exc"):
            self.assertEqual(self.again(), "A:stopped B:waits C:waits D:stopped")
        self.assertEqual(self.state("A").why, "ZeroDivisionError: by none")

    def test_a_site_while_it_is_planned(self):
        def look(night, site, *_):
            self.assertEqual((self.state(site.name).word, self.state(site.name).night), ("running", night.name))
            with open(self.path("out", site.name, "lock"), encoding="utf-8") as held, self.assertRaises(BlockingIOError):
                fcntl.flock(held, fcntl.LOCK_EX | fcntl.LOCK_NB)

        with patch.object(site_module, "make_plan", side_effect=look) as made:
            self.assertEqual(self.again(), "A:planned* B:stopped C:waits D:planned*")  # (A has left no releases)
        self.assertEqual(made.call_count, 2)

    def test_only_what_changed_and_what_it_feeds(self):
        self.plan(self.company)
        self.assertEqual(self.again(), "A:planned B:planned C:planned D:planned")
        self.lay_site("B", stock="item,onhand\nX,5\n")
        self.assertEqual(self.again(), "A:planned B:planned* C:planned* D:planned")
        self.lay_site("A", routings=TABLES["routings"] + "X,10,C,1,1,0\n")
        self.assertEqual(self.again(), "A:planned* B:planned C:planned D:planned")  # (it releases the same)
        self.lay("links.csv", LINKS + CHAIN.replace("B,X,C,M,0", "B,X,C,M,1"))
        self.assertEqual(self.again(), "A:planned B:planned C:planned* D:planned")
        self.lay("links.csv", LINKS + CHAIN.replace("B,X,C,M,0,add\n", ""))
        self.assertEqual(self.again(), "A:planned B:planned* C:planned* D:planned")
        os.remove(self.path("out/D/plan/page.html"))
        self.assertEqual(self.again(), "A:planned B:planned C:planned D:planned*")
        with open(self.program, "a", encoding="utf-8") as held:
            held.write("# another program\n")
        self.assertEqual(self.again(), "A:planned* B:planned* C:planned* D:planned*")

    def test_a_refused_site_stops_those_that_wait_for_it(self):
        self.plan(self.company)
        old = self.read("out/B/plan/page.html"), self.read("out/B/plan/day")
        self.lay_site("B", items=TABLES["items"] + "LOST,part,0,0,lfl,0,0\n")
        self.assertEqual(self.again(), "A:planned B:refused* C:waits D:planned")
        self.assertEqual((self.state("B").why, self.state("C").why), ("items.csv:3: class: 'LOST' is no class", "B"))
        self.assertIn("'LOST' is no class", self.read("out/B/faults.txt"))
        self.assertEqual((self.read("out/B/plan/page.html"), self.read("out/B/plan/day")), old)
        self.assertEqual(self.again(), "A:planned B:refused C:waits D:planned")
        self.lay_site("B")
        self.assertEqual(self.again(), "A:planned B:planned C:planned D:planned")  # (the plan that stands is of these tables)
        self.assertFalse(os.path.exists(self.path("out/B/faults.txt")))

    def test_a_site_that_came_to_no_end_is_tried_again(self):
        self.plan(self.company)
        self.lay_site("B", items=TABLES["items"] + "HUGE,part,0,0,lfl,0,0\n")
        self.assertEqual(self.again(), "A:planned B:stopped C:waits D:planned")
        self.assertEqual(self.state("B").why, "mrp plan: no memory")
        self.assertEqual(sorted(os.listdir(self.path("out/B"))), ["lock", "plan", "state.json"])
        with patch.object(site_module, "run", side_effect=OSError(errno.ENOSPC, "no space left")):
            self.assertEqual(self.again(), "A:planned B:stopped C:waits D:planned")
        self.assertIn("no space left", self.state("B").why)
        self.lay_site("B")
        self.assertEqual(self.again(), "A:planned B:planned C:planned D:planned")  # (the plan that stands is of these tables)

    def test_tables_that_links_need(self):
        self.lay_site("B", calendar="key,value\nstart,2025-01-07\n")
        self.assertEqual(self.again(), "A:planned* B:refused* C:waits D:planned*")
        self.assertIn("calendar.csv: ", self.state("B").why)

    def test_tables_that_stand_in_the_file_of_another(self):
        for site, table in (("A", "bills"), ("A", "items"), ("B", "script"), ("B", "master")):
            self.lay_company(CHAIN)
            self.lay_site(site, stock=f"{TABLES['stock']}[{table}]\n{TABLES[table]}")
            with patch.object(site_module, "inspect"):
                os.remove(self.path("sites", site, f"{table}.csv"))
                self.again()
            why = f"{table}.csv: expected a file with this table alone, since links need it"
            self.assertEqual((self.state(site).word, self.state(site).why), ("refused", why))


class Batches(InAFolder):
    def test_sizes(self):
        tier = {f"S{number:03}": number // 60 for number in range(130)}
        found = batches_of(tier, 4, None)
        self.assertEqual([len(sites) for sites in found.values()], [8] * 7 + [4] + [8] * 7 + [4] + [2] * 5)
        self.assertEqual(list(found)[:2] + list(found)[-1:], ["00-00000", "00-00001", "02-00004"])
        self.assertEqual(len(batches_of(tier, 1, None)), 2 + 2 + 2)
        self.assertEqual(len(batches_of(tier, 4, 50)), 2 + 2 + 1)
        self.assertEqual([len(sites) for sites in batches_of(dict.fromkeys(tier, 0), 1, None).values()], [50, 50, 30])
        self.assertEqual(batches_of({}, 4, None), {})

    def plan_batch(self, name):
        with contextlib.redirect_stdout(io.StringIO()):
            return plan_batch(self.top, name)

    def lay_night(self):
        company, night = read_company(self.top), self.night()
        batches = batches_of(company.tier, 1, 1)
        lay_batches(night, batches, company.sites, company.sums)
        return night, company, batches

    def test_a_night(self):
        self.lay_company(CHAIN, "ABC")
        night, company, batches = self.lay_night()
        buyers = json.loads(self.read("night", BATCHES))
        self.assertEqual(buyers, {"00-00000": [], "01-00000": ["00-00000"], "02-00000": ["01-00000"]})
        words = [state.word for state in states_tonight(night, company, batches).values()]
        self.assertEqual(words, ["stopped", "waits", "waits"])
        self.assertTrue(self.plan_batch("00-00000"))
        self.assertTrue(is_done(night, "00-00000"))
        states = states_tonight(night, company, batches)
        self.assertEqual([state.word for state in states.values()], ["planned", "stopped", "waits"])
        self.assertEqual(causes(states), {"C": ["B"]})
        waits = {"B": State(Word.REFUSED, "x"), "C": State(Word.WAITS, "B"), "D": State(Word.WAITS, "A, C")}
        self.assertEqual(causes(waits), {"C": ["B"], "D": ["A", "B"]})
        self.assertTrue(self.plan_batch("01-00000") and self.plan_batch("02-00000"))
        night, company, batches = self.lay_night()
        self.assertEqual([is_done(night, name) for name in batches], [True, True, True])
        self.lay_site("B", stock="item,onhand\nX,6\n")
        night, company, batches = self.lay_night()
        self.assertEqual([is_done(night, name) for name in batches], [True, False, True])
        self.assertFalse(os.path.exists(self.path("night/01-00000.done")))

    def done(self):
        night, _, batches = self.lay_night()
        return [is_done(night, name) for name in batches]

    def test_batches_that_are_not_settled(self):
        self.lay_company(CHAIN, "ABC")
        _, _, batches = self.lay_night()
        self.assertTrue(all(map(self.plan_batch, batches)))
        for word in Word:
            write_state(self.path("out"), "B", State(word))
            self.assertEqual(self.done(), [True, word not in ("stopped", "running"), True])
            self.assertTrue(self.plan_batch("01-00000"))
        os.remove(self.path("out/B/state.json"))
        self.assertEqual(self.done(), [True, False, True])
        self.assertTrue(self.plan_batch("01-00000"))
        self.assertEqual(self.done(), [True, True, True])
        with open(self.program, "a", encoding="utf-8") as held:
            held.write("# another program\n")
        self.assertEqual(self.done(), [False, False, False])

    def test_links_and_tables_are_what_batches_are_made_from(self):
        self.lay_company(CHAIN)
        _, _, batches = self.lay_night()
        self.assertEqual(len(batches), 4)  # (A and D, whom no link names, are of the first tier)
        self.assertTrue(all(map(self.plan_batch, batches)))
        self.assertIn("B,X,1,2025-01-06,11,M,2025-01-06,1,\n", self.read("out/C/plan/drp.csv"))
        self.lay("links.csv", f"{LINKS}\n\n{CHAIN}")
        self.assertEqual(self.done(), [True, True, True, True])
        self.lay("links.csv", LINKS + CHAIN.replace("B,X,C,M,0", "B,X,C,M,2"))
        self.assertEqual(self.done(), [True, True, True, False])
        self.lay_site("D", stock="item,onhand\nX,6\n")
        self.assertEqual(self.done(), [True, False, True, False])

    def test_what_an_earlier_night_said_is_not_of_this_one(self):
        self.lay_company(CHAIN, "ABC")
        _, _, batches = self.lay_night()
        self.assertTrue(all(map(self.plan_batch, batches)))
        self.lay_site("A", stock="item,onhand\nX,6\n")
        night, company, batches = self.lay_night()
        words = {site: state.word for site, state in states_tonight(night, company, batches).items()}
        self.assertEqual(words, {"A": "stopped", "B": "planned", "C": "planned"})  # (of B and C nothing has changed so far)

    def test_another_night_has_begun(self):
        self.lay_company(CHAIN, "ABC")
        self.lay_night()
        with patch("company.batches.read_night", lambda folder, night=self.night(): night):
            self.night()
            self.assertFalse(self.plan_batch("00-00000"))
        self.assertFalse(os.path.exists(self.path("night/00-00000.done")))

    def test_batches_that_no_longer_are(self):
        self.lay_company(CHAIN, "ABC")
        self.lay("night/09-00000.done", "x")
        self.lay_night()
        self.assertFalse(os.path.exists(self.path("night/09-00000.done")))


class Index(InAFolder):
    def test_a_page(self):
        company = self.lay_company(CHAIN, ["A", "B", "C", "D E"])
        self.plan(company)
        self.lay_site("B", items=TABLES["items"] + "LOST,part,0,0,lfl,0,0\n")
        company = read_company(self.top)
        self.plan(company)
        states = {site: self.state(site) for site in company.names}
        page = page_of(self.top, company, states)
        self.assertIn('<a href="D%20E/plan/page.html">D E</a>', page)
        self.assertIn("refused: items.csv:3: class: &#x27;LOST&#x27; is no class", page)
        self.assertIn('<a href="B/faults.txt">all faults</a>', page)
        self.assertIn("1 waits for it: C", page)
        self.assertIn("<b>2</b>planned", page)
        self.assertIn("last good plan 20", page)
        for site in company.names:
            self.assertTrue(os.path.exists(self.path("out", site, "plan", "page.html")))
            link = f'<a href="{quote(site)}/plan/page.html">{site}</a>'
            self.assertRegex(page, f'<th scope=row>{link}</th><td class="t[^"]*">{states[site].word}<')
        self.assertEqual(len(re.findall(r"<td>20\d\d-\d\d-\d\d \d\d:\d\d</td></tr>", page)), 4)

    def test_counts_of_a_page(self):
        company = self.lay_company("", [f"S{number:02}" for number in range(12)])
        for number, site in enumerate(company.names):
            counts = {name: 0 for name, *_ in COUNTS}
            if number == 7:
                counts = {name: 40 + place for place, name in enumerate(counts)}
            self.lay(f"out/{site}/plan/line.json", json.dumps({**counts, "past_due": number, "items": 3, "key": ""}))
        states = {**dict.fromkeys(company.names, State(Word.PLANNED)), "S11": State(Word.STOPPED, "no memory")}
        page = page_of(self.top, company, states)
        for name, place in (
            ("unpromised", "page.html#unkept"),
            ("at_risk", "page.html#risk"),
            ("late_supply", "page.html#late"),
            ("overloads", "page.html#centres"),
            ("early", "drp.csv"),
            ("beyond", "drp.csv"),
        ):
            count = 40 + [found for found, *_ in COUNTS].index(name)
            self.assertIn(f'<td><a href="S07/plan/{place}">{count}</a></td>', page)
        self.assertIn('<b><a href="S11/plan/page.html">S11</a></b> stopped: no memory', page)
        first = page[page.index("<section id=first>") : page.index("<section id=sites>")]
        ranked = ["S07", "S11", "S10", "S09", "S08", "S06", "S05", "S04", "S03", "S02"]
        self.assertEqual(re.findall(r">(S\d\d)</a></th>", first), ranked)

    def test_refused_links(self):
        self.plan(self.lay_company(CHAIN, "ABC"))
        company = self.lay_company("A,X,B,M,0,add\nB,X,A,M,0,add\n", "ABC")
        page = page_of(self.top, company, refused_states(company))
        self.assertIn("Nothing is planned: the links are refused", page)
        self.assertIn("a loop: A buys from B (line 2), B buys from A (line 3)", page)
