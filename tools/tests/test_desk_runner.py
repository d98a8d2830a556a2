"""Tests of desk_runner: that it finds what a desk does wrong."""

import csv
import os
import tempfile
import unittest

from desk_runner import failed, replays, transcripts
from desk_runner.calls import BAD, Book, Caller, Line, Shop, Wrong
from desk_runner.disks import callers_lines
from desk_runner.folders import HEADER, JOURNAL, put, tables_of, whole_lines
from desk_runner.ledger import Ledger
from desk_runner.lives import look_at_order
from desk_runner.messages import messages

TABLES = tables_of("bicycle")
SHOP = Shop(TABLES)
BOOK = Line(b"1,book,BIKE,2025-01-20,12,\r\n", b"1,book,BIKE,2025-01-20,12,\n")
BAD_LINE, RUN = Line(b"x\n", fault=b"6 columns"), Line(b"2,run,,,,\n", b"2,run,,,,\n")
LINES = [BOOK, BAD_LINE, RUN]
ANSWERS = [b"1,1,book,BIKE,3,12,,booked,1\n", b"refused: 6 columns script 2\n", b"2,2,run,,,,,front,2\n"]
JOURNALS = [HEADER, HEADER + BOOK.record, HEADER + BOOK.record + RUN.record]


class Ledgers(unittest.TestCase):
    def account(self, journal, answers, part=b"", lines=LINES, before=b""):
        """What a ledger finds of a life that leaves this journal, or how many records are new."""
        with tempfile.TemporaryDirectory() as room:
            ledger = Ledger(os.path.join(room, "shop"), TABLES, SHOP, "none")
            ledger.keep(before)
            put(os.path.join(ledger.path, JOURNAL), journal)
            try:
                return ledger.account(lines, answers, part), ledger.cut_told()
            except Wrong as wrong:
                return str(wrong).split()[0]

    def test_a_life_that_is_right(self):
        self.assertEqual(self.account(JOURNALS[2], ANSWERS), (2, []))
        self.assertEqual(self.account(JOURNALS[0], []), (0, []))
        self.assertEqual(self.account(b"", []), (0, []))
        self.assertEqual(self.account(b"desk,ca", []), (0, ["cut: script 0"]))
        self.assertEqual(self.account(JOURNALS[1] + b"2,ru", ANSWERS[:2]), (1, ["cut: script 2"]))

    def test_what_was_not_answered_may_stand_or_not(self):
        for journal, new in ((JOURNALS[1], 1), (JOURNALS[2], 2)):
            self.assertEqual(self.account(journal, ANSWERS[:1]), (new, []))

    def test_an_answer_that_is_lost(self):
        self.assertEqual(self.account(JOURNALS[1], ANSWERS), "LOST")
        self.assertEqual(self.account(JOURNALS[0], [], b"1,1,b"), "LOST")
        self.assertEqual(self.account(JOURNALS[0], ANSWERS[:1], b"ref"), "LOST")

    def test_other_records(self):
        self.assertEqual(self.account(HEADER + BOOK.text, ANSWERS[:1]), "record")
        self.assertEqual(self.account(JOURNALS[2] + RUN.record, ANSWERS), "record")
        self.assertEqual(self.account(JOURNALS[1], [], before=JOURNALS[2]), "the")

    def test_other_answers(self):
        for answers in ([ANSWERS[0], b"refused: 6 columns script 1\n"], [ANSWERS[2]], [b"2" + ANSWERS[0][1:]], [*ANSWERS, ANSWERS[1]]):
            self.assertIsInstance(self.account(JOURNALS[2], answers), str)

    def test_a_line_without_memory_or_room_becomes_no_record(self):
        lines = [BOOK, BOOK, RUN]
        self.assertEqual(self.account(JOURNALS[2], [b"no memory\n", ANSWERS[0], ANSWERS[2]], lines=lines), (2, []))
        self.assertIsInstance(self.account(JOURNALS[0], [b"full\n"], lines=[BOOK]), str)

    def test_a_booking_that_exceeds_what_is_available(self):
        rows = [["1", "1", "book", "BIKE", "3", "30", "", "booked", "1"], ["2", "1", "book", "BIKE", "1", "1", "", "booked", "2"]]
        book = Book(SHOP)
        book.take(rows[0])
        self.assertRaises(Wrong, book.take, rows[1])


class Orders(unittest.TestCase):
    WRITE, SYNC, ROW = '7 write(5</d/script.csv>, "1,bo"', "7 fdatasync(5</d/script.csv>) = 0", '7 write(1<pipe:[3]>, "1,1,book"'

    def look(self, *lines):
        try:
            look_at_order([f"{line}\n" for line in lines])
        except Wrong:
            return False
        return True

    def test_strace(self):
        failed_sync = "7 fdatasync(5</d/script.csv>) = -1 EIO (Input/output error) (INJECTED)"
        self.assertTrue(self.look(self.WRITE, self.SYNC, self.ROW))
        self.assertFalse(self.look(self.WRITE, self.ROW, self.SYNC))
        self.assertFalse(self.look(self.WRITE, failed_sync, self.ROW))
        self.assertFalse(self.look(self.WRITE, "7 fsync(6</d/run.part>) = 0", self.ROW))
        self.assertTrue(self.look(self.WRITE, '7 write(1<pipe:[3]>, "refused: 6"'))
        unfinished, resumed = "7 fdatasync(5</d/script.csv> <unfinished ...>", "7 <... fdatasync resumed>) = 0"
        self.assertTrue(self.look(self.WRITE, unfinished, resumed, self.ROW))
        self.assertFalse(self.look(self.WRITE, unfinished, self.ROW, resumed))

    def test_calls_that_were_told(self):
        write, sync, row = failed.Told("write", 1, 9, JOURNAL), failed.Told("sync", 2, 0, JOURNAL), failed.Told("answer", 0, 9, "1")
        for calls, is_right in (
            ([write, sync, row], True),
            ([write, row], False),
            ([write, failed.Told("sync", 2, -5, JOURNAL), row], False),
            ([write, failed.Told("sync", 2, -4, JOURNAL), sync, row], True),
            ([write, failed.Told("sync", 2, 0, "run.part"), row], False),
            ([write, failed.Told("answer", 0, 9, "r")], True),
        ):
            with self.subTest(calls=calls):
                if is_right:
                    failed.look_at_calls(calls)
                else:
                    self.assertRaises(Wrong, failed.look_at_calls, calls)

    def test_names_of_files(self):
        write, sync = failed.Told("write", 1, 9, "run.part"), failed.Told("sync", 2, 0, "run.part")
        name = failed.Told("rename", 3, 0, "run-7.day")
        failed.look_at_names([write, sync, name])
        for calls in ([write, name], [write, sync, write, name], [write, failed.Told("sync", 2, -5, "run.part"), name]):
            self.assertRaises(Wrong, failed.look_at_names, calls)

    def test_a_run_without_a_file_does_not_lack_memory(self):
        ledger = Ledger.__new__(Ledger)
        ledger.lacking = set()
        failed.look_at_lacking(ledger)
        ledger.lacking = {7}
        self.assertRaises(Wrong, failed.look_at_lacking, ledger)

    def test_a_start_is_synced_before_all_else(self):
        journal, folder, other = failed.Told("sync", 1, 0, JOURNAL), failed.Told("sync", 2, 0, "shop"), failed.Told("make", 3, 9, "desk.part")
        failed.look_at_start([journal, folder, other], "shop")
        for calls in ([journal, other, folder], [folder, other], [journal, failed.Told("sync", 2, -5, "shop"), other]):
            self.assertRaises(Wrong, failed.look_at_start, calls, "shop")

    def test_the_sum_comes_before_the_first_record(self):
        header, record = failed.Told("write", 1, 36, JOURNAL), failed.Told("write", 4, 27, JOURNAL)
        name, sync = failed.Told("rename", 2, 0, "desk.tables"), failed.Told("sync", 3, 0, "shop")
        failed.look_at_sum([header, name, sync, record], "shop", None)
        failed.look_at_sum([name, sync, record], "shop", b"")
        for calls in ([header, record, name, sync], [header, name, record, sync], [header, record]):
            self.assertRaises(Wrong, failed.look_at_sum, calls, "shop", None)


class Texts(unittest.TestCase):
    def test_messages(self):
        cut, run, end = "cut: script 3", "run 2: write failed", "no memory"
        for said, told in (
            (f"{cut}\n{run}\n{end}\n", [cut, run, end]),
            (f"cut: script {run}\n3\n{end}\n", [run, cut, end]),
            (f"{cut}run 2\n: write failed{end}\n\n", [cut, run, end]),
            (f"{cut}{run}\n\n", [cut, run]),
            ("", []),
        ):
            self.assertEqual(messages(said), told)
        self.assertEqual(messages(f"{run}\n" * 2_000), [run] * 2_000)
        self.assertEqual(messages(cut, True), [cut])
        for said in (end, cut, f"{end}\n\n", "run 1: too late\n", "x\n", f"run {run}\n"):
            self.assertEqual(messages(said), [repr(said)])

    def test_transcripts_have_known_keys(self):
        cases = transcripts.transcripts()
        self.assertGreaterEqual(len(cases), 75)
        for case in cases:
            made = case.read()
            for life in (made, *made.get("then", [])):
                self.assertLessEqual(set(life), transcripts.KEYS, case.name)
            self.assertIn("about", made, case.name)

    def test_text_of_a_transcript(self):
        self.assertEqual(transcripts.text_of("a\u00ff"), b"a\xff")
        self.assertEqual(transcripts.text_of(["a", ["bc", 3], "\n"]), b"abcbcbc\n")

    def test_whole_lines(self):
        for text, whole in ((b"a\nb", b"a\n"), (b"a\rb", b"a\r"), (b"a", b""), (b"a\n", b"a\n")):
            self.assertEqual(whole_lines(text), whole)

    def test_worked_days_at_a_desk(self):
        kinds = [type(it) for it in replays.replays()]
        self.assertGreater(kinds.count(replays.Replay), 300)
        self.assertGreater(kinds.count(replays.Refusal), 300)

    def test_lines_at_random_are_those_of_their_seed_and_have_six_cells(self):
        lines = callers_lines(SHOP, 500, 1, 0.01)
        self.assertEqual(lines, callers_lines(SHOP, 500, 1, 0.01))
        self.assertEqual(sum(bool(line.record) for line in lines), 500)
        for line in lines:
            if line.record:
                self.assertEqual([len(row) for row in csv.reader([line.record.decode()])], [6])
                self.assertIn(line.record.split(b",")[1], (b"book", b"cancel", b"ask", b"when", b"run"))
            else:
                self.assertIn((line.text, line.fault), BAD)

    def test_callers_of_other_desks_cancel_their_own_bookings(self):
        caller = Caller(SHOP, [7], 3, 0.0)
        lines = [caller.line(100, [(5, 7)]) for _ in range(500)]
        named = [line.record for line in lines if b",cancel," in line.record]
        self.assertGreater(named.count(b"7,cancel,,,,5\n"), len(named) // 2)


if __name__ == "__main__":
    unittest.main()
