"""A day as a workbook."""

import datetime
import os
import unittest
from unittest.mock import patch

from outside import is_installed, library

from .made_up import BICYCLE, DAY, InAFolder, all_days, read, sections_of
from .test_folders import NAMES


@unittest.skipUnless(is_installed("openpyxl"), "openpyxl is not installed")
class Workbooks(InAFolder):
    def book(self, day, *words):
        self.exports(day, self.path("to.xlsx"), *words)
        return library("openpyxl").load_workbook(self.path("to.xlsx"))

    def rows(self, sheet):
        return [list(row) for row in sheet.iter_rows(values_only=True)]

    def test_a_sheet_a_section(self):
        book = self.book(DAY)
        self.assertEqual(book.sheetnames, NAMES)
        self.assertEqual({sheet.freeze_panes for sheet in book}, {"A2"})
        for name, text in sections_of(read(DAY)):
            cells = [",".join("" if it is None else str(it) for it in row) for row in self.rows(book[name])]
            if name != "loads":
                self.assertEqual(cells, text.decode().splitlines())
        self.assertEqual(
            self.rows(book["loads"])[:2], [["centre", "week", "load", "capacity", "over"], ["WELD", 1, 175, 100, 75]]
        )

    def test_formats_and_dates(self):
        book = self.book(DAY, "--dir", BICYCLE)
        heads = [cell.value for cell in book["loads"][1]]
        self.assertEqual(heads, ["centre", "week", "week_date", "load", "capacity", "over"])
        cells = book["loads"][2]
        self.assertEqual(cells[2].value, datetime.datetime(2025, 1, 6))
        self.assertEqual(
            [cell.number_format for cell in cells], ["@", "0", "yyyy\\-mm\\-dd", "#,##0.000", "#,##0.000", "#,##0.000"]
        )
        self.assertEqual(
            self.rows(book["messages"])[1:3],
            [["BIKE", "planned", "1", "RELEASE", None, None], ["BIKE", "firm", "2", "IN", 2, datetime.datetime(2025, 1, 13)]],
        )

    def test_names_are_no_formulas(self):
        day = read(DAY).replace(b"WHEEL", b"=1+1").replace(b"FRAME", b"#N/A").replace(b"WELD", b"007")
        book = self.book(self.lay("day", day))
        cells = [cell for sheet in book for row in sheet.iter_rows() for cell in row if cell.value in ("=1+1", "#N/A", "007")]
        self.assertGreater(len(cells), 20)
        self.assertEqual({cell.data_type for cell in cells}, {"s"})

    def test_great_numbers_keep_their_digits(self):
        day = read(DAY).replace(b"175.000", b"12345678901234567890.123")
        self.assertEqual(self.rows(self.book(self.lay("day", day))["loads"])[1][2], "12345678901234567890.123")

    def test_the_same_bytes(self):
        self.book(DAY)
        once = read(self.path("to.xlsx"))
        self.book(DAY, "--replace")
        self.assertEqual(read(self.path("to.xlsx")), once)

    def test_what_is_refused(self):
        self.lay("to.xlsx", "old")
        self.assertIn("to.xlsx: is there; --replace replaces a file\n", self.refuses(DAY, self.path("to.xlsx")))
        self.refuses(self.lay("day", read(DAY).replace(b"175.000", b"x")), self.path("to.xlsx"), "--replace")
        self.assertEqual(read(self.path("to.xlsx")), b"old")
        with patch("export_day.writers.MOST_ROWS", 19):
            self.assertIn(
                "[pegs] has 20 rows, and a sheet takes 19: expected a folder or a database\n",
                self.refuses(DAY, self.path("new.xlsx")),
            )
        self.assertIn("there is no folder", self.refuses(DAY, self.path("none", "to.xlsx")))

    def test_some_days(self):
        for day in all_days()[::80]:
            with self.subTest(day):
                book = self.book(day, "--replace")
                self.assertEqual(book.sheetnames, NAMES)
                os.remove(self.path("to.xlsx"))


if __name__ == "__main__":
    unittest.main()
