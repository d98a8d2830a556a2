"""Companies for the tests, and a program in place of mrp."""

import os
import shutil
import tempfile
import unittest

from company.batches import NIGHT
from company.command import own_files, sum_of
from company.company import read_company
from company.site import Night, plan_site
from company.states import read_state, write_json

SITES = os.path.dirname(os.path.dirname(os.path.dirname(os.path.realpath(__file__))))
EXAMPLE = os.path.join(SITES, "example")
LINKS = "site,item,supplier,supplier_item,transit_weeks,mode\n"
TABLES = {
    "calendar": "key,value\nstart,2025-01-06\nweeks,4\nworkdays,1111100\n",
    "items": "item,class,lead,scrap,lot,size,safety\nX,part,0,0,lfl,0,0\nY,part,0,0,lfl,0,0\nM,master,0,0,lfl,0,0\n",
    "centres": "centre,minutes\n",
    "stock": "item,onhand\nX,4\n",
    "receipts": "item,order,date,quantity\n",
    "bills": "parent,component,per\nM,Y,1\n",
    "routings": "item,op,centre,setup,run,offset\n",
    "master": "item,row,date,quantity\nM,forecast,2025-01-07,3\n",
    "script": "desk,call,item,date,quantity,number\n1,ask,M,2025-01-06,,\n",
}
# Plans as many pieces of each bought part as its stock and the master rows say; refuses a class LOST, runs out of memory for one
# HUGE, and finds fault with the day of one WRONG.
PROGRAM = """#!/usr/bin/python3
import os, sys
words = sys.argv[1:]
folder = next((words[n + 1] for n, word in enumerate(words) if word == "--dir"), None)
items = open(os.path.join(folder, "items.csv")).read()
if words[0] == "inspect":
    print("items.csv:3: class: 'LOST' is no class" if "LOST" in items else "no faults, no warnings")
    sys.exit("LOST" in items)
if "HUGE" in items:
    print("no memory", file=sys.stderr)
    sys.exit(3)
if words[0] == "check" and "WRONG" in items:
    sys.exit("wrong: this is not the day")
if words[0] == "page":
    print("<title>" + words[-1] + "</title>")
if words[0] == "plan":
    heads = {
        "history": "entry,desk,call,item,week,quantity,number,reply,value", "run": "front,standing",
        "promises": "item,week,firm,booked,bucket,available", "plan": "item,week,gross,open,firm,planned,start,balance",
        "orders": "item,order,kind,due,quantity,start,release,late", "pegs": "item,week,need,number,parent,line,supply,source,quantity",
        "messages": "item,supply,source,message,value", "loads": "centre,week,load,capacity,over"}
    stock = [line.strip().split(",") for line in open(os.path.join(folder, "stock.csv"))][1:]
    made = sum(int(line.split(",")[3]) for line in list(open(os.path.join(folder, "master.csv")))[1:])
    rows = {"orders": [f"{item},1,planned,2,{n},{int(n) + made},1,1" for item, n in stock], "plan": ["X,1,0,0,0,0,0,0"]}
    for name, head in heads.items():
        print("\\n".join([f"[{name}]", head, *rows.get(name, [])]))
"""


class InAFolder(unittest.TestCase):
    """Tests in a temporary folder."""

    def setUp(self):
        self.top = tempfile.mkdtemp()
        self.addCleanup(shutil.rmtree, self.top)
        self.program = self.lay("mrp", PROGRAM)
        os.chmod(self.program, 0o755)
        self.nights = 0

    def path(self, *names):
        return os.path.join(self.top, *names)

    def lay(self, name, data):
        path = self.path(name)
        os.makedirs(os.path.dirname(path), exist_ok=True)
        with open(path, "wb") as held:
            held.write(data.encode() if isinstance(data, str) else data)
        return path

    def read(self, *names):
        with open(self.path(*names), encoding="utf-8") as held:
            return held.read()

    def lay_site(self, site, **changed):
        for table, text in {**TABLES, **changed}.items():
            if text is not None:
                self.lay(f"sites/{site}/{table}.csv", text)

    def lay_company(self, links, sites="ABCD"):
        for site in sites:
            self.lay_site(site)
        self.lay("links.csv", LINKS + links)
        return read_company(self.top)

    def night(self, memory=0):
        """A new night of the company."""
        self.nights += 1
        night = Night(self.top, self.program, sum_of([self.program, *own_files()]), memory, str(self.nights))
        self.lay(f"night/{NIGHT}", "")
        write_json(self.path("night", NIGHT), {"name": night.name, "program": night.program, "sum": night.sum, "memory": memory})
        return night

    def plan(self, company):
        """Plans all sites, in the order of the tiers: the word of each, with a star where it was planned anew."""
        night, told = self.night(), {}
        for site in sorted(company.names, key=lambda name: (company.tier[name], name)):
            state = plan_site(night, company.sites[site])
            told[site] = f"{state.word}{'*' if state.is_new else ''}"
        return " ".join(f"{site}:{told[site]}" for site in sorted(told))

    def state(self, site):
        return read_state(self.path("out"), site)
