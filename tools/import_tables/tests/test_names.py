"""What names.toml says."""

import os
import unittest

from import_tables.tables import TABLES

from .made_up import BICYCLE, InAFolder, read_tables

NAMES = """
[tables]
items = "Artikelstamm.csv"
stock = "Bestand"
[columns.items]
item = "Artikel-Nr."
class = "Art"
lead = "Lieferzeit"
lot = "Losregel"
[words.items.class]
Fertigware = "master"
Zukauf = "part"
[words.items.lot]
"Los für Los" = "lfl"
FOQ = "fixed"
[empty.items]
scrap = 0
safety = 0
"""
ITEMS = """Artikel-Nr.;Art;Lieferzeit;Losregel;Size;Safety
BIKE;Fertigware;1;Los für Los;0;
FRAME;ZUKAUF;1;foq;20;5
WHEEL;part;2;period;2;
"""
EXPECTED = (
    "item,class,lead,scrap,lot,size,safety\nBIKE,master,1,0,lfl,0,0\nFRAME,part,1,0,fixed,20,5\nWHEEL,part,2,0,period,2,0\n"
)


class Names(InAFolder):
    def lay_theirs(self, names=NAMES):
        source = self.lay_shop(items=None)
        self.lay("from/Artikelstamm.csv", ITEMS)
        os.rename(self.path("from", "stock.csv"), self.path("from", "Bestand.txt"))
        self.lay("from/names.toml", names)
        return source

    def test_of_the_folder(self):
        out, tables = self.imports(self.lay_theirs())
        self.assertEqual(tables, {**read_tables(BICYCLE), "items": EXPECTED.encode()})
        self.assertIn(
            "Artikelstamm.csv: heads: 'Artikel-Nr.' is item, 'Art' is class, 'Lieferzeit' is lead, 'Losregel' is lot, ", out
        )
        for line in (
            "3: Art: 'ZUKAUF' is written part",
            "2: Losregel: 'Los für Los' is written lfl",
            "2: scrap: '' is written 0",
            "4: Safety: '' is written 0",
        ):
            self.assertIn(f"Artikelstamm.csv:{line}\n", out)
        self.assertNotIn("names.toml", out)

    def test_by_the_option(self):
        source = self.lay_theirs()
        os.rename(self.path("from", "names.toml"), self.path("mine.toml"))
        self.assertEqual(self.imports(source, "--names", self.path("mine.toml"))[1]["items"], EXPECTED.encode())

    def test_a_column_that_would_be_two(self):
        names = NAMES.replace('lot = "Losregel"', 'lot = "Size"')
        err = self.refuses(self.lay_theirs(names))
        self.assertIn(
            "Artikelstamm.csv: the column 'size' is size, and the names say another; expected them to say size too\n", err
        )

    def test_names_for_all_tables(self):
        tables = "\n".join(f'{table} = "my {table}.txt"' for table in TABLES)
        source = self.lay_shop()
        for table in TABLES:
            os.rename(os.path.join(source, f"{table}.csv"), os.path.join(source, f"My {table}.txt"))
        self.lay("from/names.toml", f"[tables]\n{tables}\n")
        self.assertEqual(self.imports(source)[1], read_tables(BICYCLE))

    def test_a_sheet_of_two_tables(self):
        source = self.lay_theirs('[tables]\nstock = "items"\n[columns.stock]\nonhand = "Stock"\n')
        os.remove(self.path("from", "Artikelstamm.csv"))
        self.lay("from/items.csv", "item,class,lead,scrap,lot,size,safety,Stock\nBIKE,master,1,0,lfl,0,0,12\n")
        self.assertEqual(self.imports(source)[1]["stock"], b"item,onhand\nBIKE,12\n")

    def test_a_name_that_is_not_there(self):
        err = self.refuses(self.lay_theirs(NAMES.replace('"Lieferzeit"', '"Frist"').replace('"Bestand"', '"Lager"')))
        self.assertIn("Artikelstamm.csv: no column is called 'Frist'; its heads are 'Artikel-Nr.', 'Art'", err)
        self.assertIn(
            "stock: no file is called Lager among Bestand.txt, Artikelstamm.csv, bills.csv, calendar.csv, centres.csv, master.csv, "
            "receipts.csv, routings.csv, script.csv; names.toml ([tables]) says which it is; where there is none, --empty stock\n",
            err,
        )

    def test_names_that_are_refused(self):
        for names, line in (
            ("[tables", "Expected ']' at the end of a table declaration"),
            (
                "[sheets]\nitems = 'a'",
                "names.toml: [sheets] is none of [tables], [columns.TABLE], [words.TABLE.COLUMN], [empty.TABLE]\n",
            ),
            ("tables = 1", "names.toml: [tables] is none of"),
            ("[tables]\nitem = 'a'", "names.toml: item in [tables] is none of the nine tables\n"),
            ("[tables]\nitems = 1", "names.toml: items in [tables]: expected the name of a file or sheet in quotes\n"),
            ("[columns]\nitems = 1", "names.toml: expected [columns.items]\n"),
            ("[columns.items]\nname = 'a'", "names.toml: name in [columns.items] is no column of items\n"),
            ("[columns.items]\nitem = 1", "names.toml: item in [columns.items]: expected the head of a column in quotes\n"),
            ("[words.items.item]\na = 'b'", "names.toml: item in [words.items]: has no words\n"),
            (
                "[words.items.lot]\na = 'b'",
                'names.toml: [words.items.lot]: expected lines such as "their word" = "lfl", with one of lfl, fixed, period\n',
            ),
            ("[empty.items]\nscrap = 'none'", "names.toml: scrap in [empty.items]: expected what stands for an empty cell\n"),
        ):
            with self.subTest(names):
                self.assertIn(line, self.refuses(self.lay_theirs(names)))
            self.doCleanups()
            self.setUp()

    def test_no_such_file(self):
        self.assertIn("none.toml: No such file or directory\n", self.refuses(BICYCLE, "--names", self.path("none.toml")))


if __name__ == "__main__":
    unittest.main()
