"""The sections of a day as files; days that are none."""

import contextlib
import errno
import io
import os
import shutil
import sys
import unittest
from unittest.mock import patch

from ..command import main
from .made_up import BICYCLE, DAY, InAFolder, all_days, read, sections_of

NAMES = ["history", "run", "promises", "plan", "orders", "pegs", "messages", "loads"]


class Folders(InAFolder):
    def files(self):
        """The bytes of the files that were written, by the names of the sections."""
        return {name.removesuffix(".csv"): read(self.path("to", name)) for name in os.listdir(self.path("to"))}

    def test_the_bytes_of_the_sections(self):
        days = all_days()[::5]
        self.assertGreater(len(days), 100)
        for day in days:
            with self.subTest(day):
                self.exports(day, self.path("to"), "--replace")
                sections = sections_of(read(day))
                self.assertEqual(self.files(), dict([sections[0], *sections[-7:]]))

    def test_what_is_said(self):
        said = self.exports(DAY, self.path("to"))
        self.assertEqual(
            said, f"{self.path('to')} is written: history 7, run 1, promises 6, plan 18, orders 8, pegs 20, messages 7, loads 6\n"
        )

    def test_each_run(self):
        sections = sections_of(read(DAY))
        other = [[name, text.replace(b"WHEEL", b"TYRE")] for name, text in sections[1:]]
        day = b"".join(f"[{name}]\n".encode() + text for name, text in [*sections, *other])
        for words, expected in ((["--run", "1"], sections[1:]), (["--run", "2"], other), ([], other)):
            self.exports(self.lay("day", day), self.path("to"), "--replace", *words)
            self.assertEqual(self.files(), dict([sections[0], *expected]))
        self.assertIn("export: no such run: the day has 2\n", self.refuses(self.path("day"), self.path("new"), "--run", "3"))

    def test_standard_input(self):
        with open(DAY, "rb") as day, io.TextIOWrapper(day) as text, patch.object(sys, "stdin", text):
            self.exports("-", self.path("to"))
        self.assertEqual(self.files()["loads"], sections_of(read(DAY))[-1][1])

    def test_dates_of_weeks(self):
        self.exports(DAY, self.path("to"), "--dir", BICYCLE)
        files = {name: text.decode().splitlines() for name, text in self.files().items()}
        self.assertEqual(
            files["history"][:2],
            [
                "entry,desk,call,item,week,week_date,quantity,number,reply,value,value_date",
                "1,1,book,BIKE,3,2025-01-20,12,,booked,1,",
            ],
        )
        self.assertEqual(files["orders"][0], "item,order,kind,due,due_date,quantity,start,release,release_date,late")
        self.assertEqual(
            files["messages"][:3],
            ["item,supply,source,message,value,value_date", "BIKE,planned,1,RELEASE,,", "BIKE,firm,2,IN,2,2025-01-13"],
        )
        self.assertEqual(files["run"], ["front,standing", "7,3"])

    def test_a_reply_that_is_a_week(self):
        history = "[history]\nentry,desk,call,item,week,quantity,number,reply,value\n1,1,when,BIKE,,9,,week,4\n2,1,ask,BIKE,1,,,available,4\n"
        day = history.encode() + read(DAY).partition(b"[run]")[1] + read(DAY).partition(b"[run]")[2]
        shutil.copytree(BICYCLE, self.path("shop"))
        self.lay(
            "shop/script.csv", "desk,call,item,date,quantity,number\n1,when,BIKE,,9,\n2,run,,,,\n1,ask,BIKE,2025-01-10,x,\n"
        )
        self.exports(self.lay("day", day), self.path("to"), "--dir", self.path("shop"))
        self.assertEqual(
            self.files()["history"].decode().splitlines()[1:],
            ["1,1,when,BIKE,,,9,,week,4,2025-01-27", "2,1,ask,BIKE,1,2025-01-06,,,available,4,"],
        )

    def test_tables_that_can_not_be_read(self):
        calendar = "key,value\nstart,2025-01-06\nweeks,{}\nworkdays,1111100\n"
        shutil.copytree(BICYCLE, self.path("shop"))
        for text, line in (
            (calendar.format(0), "calendar.csv: expected a Monday as start, and 1 to 104 weeks\n"),
            (calendar.format(6).replace("01-06", "01-07"), "calendar.csv: expected a Monday as start, and 1 to 104 weeks\n"),
            ("key,value\nweeks,6\n", "has no start, weeks, workdays and holidays that can be read\n"),
            (b"\xff", "has no start, weeks, workdays and holidays that can be read\n"),
            (calendar.format(6) + "[stuff]\n[stock]", "export: the day is not of these tables: "),
        ):
            with self.subTest(text):
                self.lay("shop/calendar.csv", text)
                self.assertIn(line, self.refuses(DAY, self.path("to"), "--dir", self.path("shop")))
        self.lay("shop/calendar.csv", calendar.format(6))
        self.lay("shop/master.csv", "item,row,date,quantity\nBIKE,firm,soon,1\n")
        said = self.refuses(DAY, self.path("to"), "--dir", self.path("shop"))
        self.assertIn("shop: has tables that can not be read: mrp plan --dir ", said)
        os.remove(self.path("shop", "stock.csv"))
        self.assertIn("shop: has no stock.csv\n", self.refuses(DAY, self.path("to"), "--dir", self.path("shop")))
        self.assertIn("No such file", self.refuses(DAY, self.path("to"), "--dir", self.path("none")))


class Refusals(InAFolder):
    def test_names_of_other_files(self):
        for name in ("day.xls", "day.ODS", "orders.csv"):
            with self.subTest(name):
                self.assertIn("expected a folder, a workbook .xlsx or a .toml", self.refuses(DAY, self.path(name)))

    def test_no_days(self):
        day = read(DAY)
        for text, line in (
            (b"", "export: the day breaks off: expected [history]\n"),
            (b"refused: 13 unknown-item bills 4\n", "export: line 1: is no day: it does not begin with [history]\n"),
            (b"[calendar]\nkey,value\n", "export: line 1: is no day: expected [history]\n"),
            (b"[history]\n", "export: the day breaks off\n"),
            (
                b"[history]\nentry,desk\n",
                "export: line 2: is no day: expected entry,desk,call,item,week,quantity,number,reply,value\n",
            ),
            (day[:-1], "the day breaks off\n"),
            (day[: day.index(b"[loads]")], "export: the day breaks off: expected [loads]\n"),
            (day[: day.index(b"[run]")], "export: the day breaks off: expected [run]\n"),
            (day.replace(b"[pegs]", b"[notes]"), "is no day: expected [pegs]\n"),
            (day.replace(b"RELEASE,\n", b"RELEASE\n", 1), "is no row of [messages]\n"),
            (day.replace(b",RELEASE,", b",RELEASE,x", 1), "is no row of [messages]\n"),
            (day.replace(b"175.000", b"175", 1), "is no row of [loads]\n"),
            (day.replace(b"booked,1\n", b'"booked,1\n', 1), "is no row of [history]\n"),
        ):
            with self.subTest(line):
                self.assertNotEqual(text, day)
                self.assertIn(line, self.refuses(self.lay("day", text), self.path("to")))
        self.assertIn("No such file", self.refuses(self.path("none"), self.path("to")))
        self.assertIn("Is a directory", self.refuses(self.top, self.path("to")))

    def test_a_row_is_told_by_its_line(self):
        text = read(DAY).replace(b"booked,1\n", b"booked,one\n", 1)
        self.assertIn("export: line 3: is no row of [history]\n", self.refuses(self.lay("day", text), self.path("to")))

    def test_where_something_is(self):
        self.exports(DAY, self.path("to"))
        self.assertIn("is not empty; --replace replaces what is there\n", self.refuses(DAY, self.path("to")))
        self.lay("to/thesis.txt", "dear")
        self.assertIn("has thesis.txt, which --replace would delete", self.refuses(DAY, self.path("to"), "--replace"))
        self.lay("file", "dear")
        self.assertIn("is there, and no folder\n", self.refuses(DAY, self.path("file"), "--replace"))

    def test_a_refusal_leaves_the_old_files(self):
        self.exports(DAY, self.path("to"))
        self.refuses(self.lay("day", read(DAY)[:-1]), self.path("to"), "--replace")
        self.assertEqual(len(os.listdir(self.path("to"))), len(NAMES))

    def test_a_disk_that_is_full(self):
        self.exports(DAY, self.path("to"))
        full = OSError(errno.ENOSPC, os.strerror(errno.ENOSPC))
        with patch("export_day.writers.dated_rows", side_effect=full):
            self.assertIn("No space left on device\n", self.refuses(DAY, self.path("to"), "--replace", "--dir", BICYCLE))
        self.assertEqual(len(os.listdir(self.path("to"))), len(NAMES))

    def test_words_that_are_refused(self):
        for words in (
            (),
            ("a",),
            ("a", "b", "c"),
            ("a", ""),
            ("a", "b", "--run", "0"),
            ("a", "b", "--run", "x"),
            ("a", "b", "--replac"),
        ):
            with self.subTest(words), contextlib.redirect_stderr(io.StringIO()) as err, self.assertRaises(SystemExit) as ended:
                main([*words])
            self.assertEqual((ended.exception.code, err.getvalue() != ""), (2, True))


if __name__ == "__main__":
    unittest.main()
