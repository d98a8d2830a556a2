"""Workbooks, a sheet a table."""

import datetime
import os
import subprocess
import sys
import unittest
import zipfile

from outside import is_installed, library

from .made_up import BICYCLE, SHOPS, TOP, InAFolder, read_tables, rows_of

KEPT = os.path.join(SHOPS, "bicycle.xlsx")


@unittest.skipUnless(is_installed("openpyxl"), "openpyxl is not installed")
class Workbooks(InAFolder):
    def book(self, **changed):
        """The workbook of the bicycle shop, in which some sheets have other rows."""
        book = library("openpyxl").Workbook()
        book.remove(book.active)
        for table, text in read_tables(BICYCLE).items():
            sheet = book.create_sheet(table)
            for row in changed.get(table, rows_of(text)):
                sheet.append([cell or None for cell in row] if table not in changed else row)
        return book

    def save(self, book):
        book.save(self.path("from.xlsx"))
        return self.path("from.xlsx")

    def imports_bicycle(self, *words, **changed):
        out, tables = self.imports(self.save(self.book(**changed)), *words)
        self.assertEqual(tables, read_tables(BICYCLE))
        return out

    def refuses_stock(self, *rows):
        return self.refuses(self.save(self.book(stock=[["item", "onhand"], *rows])))

    def test_the_example(self):
        out, tables = self.imports(KEPT)
        self.assertEqual(tables, read_tables(BICYCLE))
        self.assertIn("cells written otherwise than they were found: 0\n", out)

    def test_numbers_and_dates(self):
        date, calendar = datetime.datetime, [
            ["KEY", "VALUE"],
            ["start", datetime.date(2025, 1, 6)],
            ["weeks", 6.0],
            ["workdays", 1111100],
        ]
        receipts = [["item", "order", "date", "quantity"], ["FRAME", "R1", date(2025, 1, 22), 15.0]]
        self.imports_bicycle(receipts=receipts, calendar=[*calendar, ["holiday", date(2025, 1, 20)]])

    def test_rows_and_columns_of_nothing(self):
        stock = [
            [],
            [None, "item", None, "onhand"],
            [],
            [None, "BIKE", None, 10],
            [None, "FRAME", None, 12],
            ["", " "],
            [None, "WHEEL", None, 30],
        ]
        out = self.imports_bicycle(stock=stock)
        self.assertIn("stock: rows of nothing are left out: rows 1, 3, 6\n", out)

    def test_formats_below_the_last_row_are_nothing(self):
        book = self.book()
        book["stock"]["C400"].font = library("openpyxl").styles.Font(bold=True)
        self.assertNotIn("stock", self.imports(self.save(book))[0])

    def test_texts_in_place_of_numbers(self):
        out = self.imports_bicycle(stock=[["item", "onhand"], ["BIKE", "10.0"], ["FRAME", "12"], ["WHEEL", " 30"]])
        self.assertIn("stock!B2: onhand: '10.0' is written 10\n", out)

    def test_sheets_of_other_names(self):
        book = self.book()
        book["stock"].title, book["items"].title = "Stock ", "Item_S"
        book.create_sheet("Notes").append(["call the joiner"])
        out, tables = self.imports(self.save(book))
        self.assertEqual(tables, read_tables(BICYCLE))
        self.assertIn("Notes: is no table, and not read\n", out)

    def test_what_is_hidden_is_told(self):
        book = self.book()
        book["stock"].row_dimensions[3].hidden = True
        book["bills"].sheet_state = "hidden"
        book["bills"].merge_cells("E1:E2")
        out, tables = self.imports(self.save(book))
        self.assertEqual(tables, read_tables(BICYCLE))
        self.assertIn("stock: hidden rows are read like the others: 1\n", out)
        self.assertIn("bills: the sheet is hidden, and read like any other\n", out)
        self.assertIn("bills: merged cells are empty, but for the first: E1:E2\n", out)

    def test_zeros_in_front_of_a_name(self):
        book = self.book(centres=[["centre", "minutes"], [7, 20]], routings=[["item", "op", "centre", "setup", "run", "offset"]])
        book["centres"]["A2"].number_format = "0000"
        out, tables = self.imports(self.save(book))
        self.assertEqual(tables["centres"], b"centre,minutes\n0007,20\n")
        self.assertIn("centres!A2: centre: 7 is written 0007\n", out)

    def test_cells_that_are_refused(self):
        for row, line in (
            (["BIKE", 10.5], "stock!B2: onhand: 10.5 has decimals; expected a whole number\n"),
            (["BIKE", -1], "stock!B2: onhand: -1 is negative; expected a whole number of 0 or more\n"),
            (["BIKE", True], "stock!B2: onhand: the logical value TRUE; expected a value\n"),
            (["BIKE", "#REF!"], "stock!B2: onhand: the error #REF!; expected a value\n"),
            (["BIKE", "=1+1"], "stock!B2: onhand: a formula whose value the workbook does not hold"),
            (
                ["BIKE", datetime.datetime(2025, 1, 10)],
                "stock!B2: onhand: 2025-01-10 00:00:00 is no number; expected a whole number\n",
            ),
            (
                [datetime.datetime(2025, 5, 1), 10],
                "stock!A2: item: 2025-05-01 00:00:00 is a date, made of a name by the spreadsheet as it seems",
            ),
            ([10.5, 10], "stock!A2: item: 10.5 is a number, and the name that was meant can not be told"),
        ):
            with self.subTest(line):
                self.assertIn(line, self.refuses_stock(row))
            self.doCleanups()
            self.setUp()

    def test_columns_without_a_head(self):
        out, _ = self.imports(self.save(self.book(stock=[["item", "onhand"], ["BIKE", 10, None, "damaged"]])))
        self.assertIn("stock: a column is left out: one without a head, 1 cell\n", out)

    def test_a_percentage(self):
        book = self.book()
        book["stock"]["B2"].value, book["stock"]["B2"].number_format = 1, "0%"
        self.assertIn("stock!B2: onhand: 1 is shown as a percentage", self.refuses(self.save(book)))

    def test_texts_among_dates(self):
        receipts = [
            ["item", "order", "date", "quantity"],
            ["FRAME", "R1", "22/01/2025", 1],
            ["FRAME", "R2", datetime.datetime(2025, 3, 2), 1],
        ]
        err = self.refuses(self.save(self.book(receipts=receipts)))
        self.assertIn("receipts!C2: date: '22/01/2025' is a text among dates of the workbook", err)

    def test_workdays_that_lost_zeros(self):
        calendar = [["key", "value"], ["start", "2025-01-06"], ["weeks", 6], ["workdays", 111110]]
        self.assertIn(
            "calendar!B4: value: 111110 are no workdays; expected seven of 0 and 1",
            self.refuses(self.save(self.book(calendar=calendar))),
        )

    def test_no_workbook(self):
        for name, data in (("a.xlsx", b"item,onhand\n"), ("b.xlsx", b"PK\x03\x04"), ("c.xlsx", b"")):
            self.assertIn(f"{name}: is no workbook that can be read: ", self.refuses(self.lay(name, data)))
        with zipfile.ZipFile(self.path("d.xlsx"), "w") as held:
            held.writestr("a", "b")
        self.assertIn("d.xlsx: is no workbook that can be read: ", self.refuses(self.path("d.xlsx")))

    def test_sheets_that_are_not_there(self):
        book = self.book()
        book.remove(book["routings"])
        book["items"].title = "Item master"
        err = self.refuses(self.save(book))
        among = "Item master, calendar, centres, stock, receipts, bills, master, script"
        says = "names.toml ([tables], with --names) says which it is"
        self.assertIn(f"items: no sheet of that name among {among}; {says}\n", err)
        self.assertIn(f"routings: no sheet of that name; {says}; where there is none, --empty routings\n", err)
        book["Item master"].title = "items"
        _, tables = self.imports(self.save(book), "--empty", "routings")
        self.assertEqual(tables["routings"], b"item,op,centre,setup,run,offset\n")


@unittest.skipUnless(is_installed("openpyxl"), "openpyxl is not installed")
class Example(InAFolder):
    """tools/workbook, and shops/bicycle.xlsx, which it made."""

    def make(self, folder, name):
        words = [sys.executable, "-B", os.path.join(TOP, "tools", "workbook"), folder, self.path(name)]
        ended = subprocess.run(words, stdin=subprocess.DEVNULL, capture_output=True, text=True, check=False)
        self.assertEqual((ended.returncode, ended.stdout, ended.stderr), (0, "", ""))
        return self.path(name)

    def test_the_same_bytes(self):
        held = []
        for name in ("a.xlsx", "b.xlsx", "b.xlsx"):
            with open(self.make(BICYCLE, name), "rb") as made:
                held.append(made.read())
        self.assertEqual(len(set(held)), 1)

    def test_the_kept_one_has_the_cells_that_it_makes(self):
        books = [library("openpyxl").load_workbook(path) for path in (KEPT, self.make(BICYCLE, "a.xlsx"))]
        cells = [
            [(sheet.title, [[(it.value, it.number_format) for it in row] for row in sheet]) for sheet in book] for book in books
        ]
        self.assertEqual(*cells)

    def test_there_and_back(self):
        for shop in ("pumps", "bicycle-service", "bicycle-shop-days"):
            source = self.lay_shop(shop)
            self.assertEqual(self.imports(self.make(source, "a.xlsx"))[1], read_tables(source))
            self.doCleanups()
            self.setUp()

    def test_folders_that_are_none(self):
        self.lay_shop(stock="item,pieces\n")
        for folder, line in (
            (self.path("none"), "No such file or directory"),
            (self.path("from"), "stock.csv: is not the table stock"),
        ):
            words = [sys.executable, "-B", os.path.join(TOP, "tools", "workbook"), folder, self.path("a.xlsx")]
            ended = subprocess.run(words, stdin=subprocess.DEVNULL, capture_output=True, text=True, check=False)
            self.assertEqual((ended.returncode, os.path.exists(self.path("a.xlsx"))), (1, False))
            self.assertIn(line, ended.stderr)

    def test_names_that_a_spreadsheet_would_change(self):
        centres = "centre,minutes\n=1+1,1\n#N/A,2\n007,3\n1-2,4\nTRUE,5\n"
        source = self.lay_shop(centres=centres, routings="item,op,centre,setup,run,offset\n")
        self.assertEqual(self.imports(self.make(source, "a.xlsx"))[1]["centres"], centres.encode())


if __name__ == "__main__":
    unittest.main()
