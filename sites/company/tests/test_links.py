"""What is wrong with links, and in which order sites are planned."""

from ..company import read_company
from ..links import read_links
from .made_up import LINKS, InAFolder

SCRIPT = "desk,call,item,date,quantity,number\n"


class Links(InAFolder):
    def faults(self, links, sites="ABCD"):
        return self.lay_company(links, sites).faults

    def test_right_ones(self):
        company = self.lay_company("A,X,B,M,0,add\nA,M,C,M,104,replace\nB,X,D,M,0,add\nC,X,D,M,0,add\n")
        self.assertEqual(company.faults, ["links.csv:3: M is made at A: sites/A/bills.csv:2 has it as parent"])
        company = self.lay_company("A,X,B,M,0,add\nB,X,D,M,0,add\nC,X,D,M,0,add\n")
        self.assertEqual((company.faults, company.tier), ([], {"A": 0, "B": 1, "C": 0, "D": 2}))
        self.assertEqual([link.site for link in company.sites["D"].sells], ["B", "C"])
        self.assertEqual((company.sites["A"].buys, company.sites["D"].buys), (["X"], []))

    def test_no_links(self):
        company = self.lay_company("")
        self.assertEqual((company.faults, set(company.tier.values())), ([], {0}))

    def test_a_loop_has_its_path(self):
        self.assertEqual(
            self.faults("A,X,B,M,0,add\nB,X,C,M,0,add\nC,X,D,M,0,add\nD,X,B,M,0,add\n"),
            ["links.csv:3: a loop: B buys from C (line 3), C buys from D (line 4), D buys from B (line 5)"],
        )
        self.assertEqual(self.faults("A,X,A,M,0,add\n"), ["links.csv:2: a loop: A buys from A (line 2)"])

    def test_records(self):
        for record, fault in (
            ("A,X,B,M,105,add", "transit_weeks: '105'; expected a number from 0 to 104"),
            ("A,X,B,M,-1,add", "transit_weeks: '-1'; expected a number from 0 to 104"),
            ("A,X,B,M,,add", "transit_weeks: ''; expected a number from 0 to 104"),
            ("A,X,B,M,0,Add", "mode: 'Add'; expected add or replace"),
            ("A,X,B,M,0", "5 cells; expected 6"),
        ):
            self.assertEqual(self.faults(f"\n{record}\n"), [f"links.csv:3: {fault}"])
        self.assertEqual(read_links(b"site,item\n")[1], [f"links.csv:1: expected the header {LINKS.strip()}"])
        self.assertEqual(read_links(b"")[1], [f"links.csv:1: expected the header {LINKS.strip()}"])

    def test_names(self):
        for links, faults in (
            ("E,X,F,M,0,add\n", ["links.csv:2: there is no folder sites/E", "links.csv:2: there is no folder sites/F"]),
            ("A,Z,B,M,0,add\n", ["links.csv:2: Z is not in sites/A/items.csv"]),
            ("A,X,B,Z,0,add\n", ["links.csv:2: Z is not in sites/B/items.csv"]),
            ("A,X,B,Y,0,add\n", ["links.csv:2: Y is no master item of B"]),
            ("A,X,B,M,0,add\nA,X,C,M,0,add\n", ["links.csv:3: X of A is bought twice; line 2 has it too"]),
            ("A,X,B,M,0,add\nC,X,B,M,0,replace\n", ["links.csv:3: M of B is both add and replace; see line 2"]),
        ):
            with self.subTest(links):
                self.assertEqual(self.faults(links), faults)

    def test_a_booked_item(self):
        self.lay_site("B", script=SCRIPT + "\n1,ask,M,2025-01-06,,\n1,book,M,2025-01-06,1,\n1,book,M,2025-01-06,1,\n")
        self.lay_site("A")
        self.lay("links.csv", LINKS + "A,X,B,M,0,add\n")
        self.assertEqual(read_company(self.top).faults, ["links.csv:2: M is booked at B: sites/B/script.csv:4"])
        self.lay_site("B", script=SCRIPT + "1,ask,M,2025-01-06,,\n1,book,Y,2025-01-06,1,\n1,cancel,M,2025-01-06,,1\n")
        self.assertEqual(read_company(self.top).faults, [])

    def test_a_made_item(self):
        self.lay_company("A,X,B,M,0,add\n")
        self.lay_site("A", bills="parent,component,per\nM,Y,1\nX,Y,1\nX,Z,1\n")
        self.assertEqual(read_company(self.top).faults, ["links.csv:2: X is made at A: sites/A/bills.csv:3 has it as parent"])

    def test_tables_that_can_not_be_read_tell_nothing(self):
        self.lay_site("A", items="item,class\n")
        self.lay_site("B", items=None)
        self.lay("links.csv", LINKS + "A,X,B,M,0,add\n")
        self.assertEqual(read_company(self.top).faults, [])

    def test_names_of_folders(self):
        self.lay_site("-A")
        self.lay("links.csv", LINKS)
        fault = "sites/-A: expected a name of letters, digits, spaces, '.', '_' and '-', at most 64"
        self.assertEqual(read_company(self.top).faults, [fault])

    def test_a_byte_order_mark_and_windows_line_ends(self):
        links, faults = read_links(b"\xef\xbb\xbf" + LINKS.replace("\n", "\r\n").encode() + b"A,X,B,M,1,add\r\n")
        self.assertEqual((len(links), links[0].line, links[0].transit, faults), (1, 2, 1, []))
