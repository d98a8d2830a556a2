import contextlib
import io
import unittest
from types import SimpleNamespace
from unittest.mock import patch

from .. import toolchain
from ..command import main, read, unknown_word, words_given
from ..report import Report
from ..together import Waiting, go_together
from .made_up import Crate, InAFolder


def said_by(call, *given):
    """What a call writes on both streams, and its status."""
    out = io.StringIO()
    with contextlib.redirect_stdout(out), contextlib.redirect_stderr(out):
        try:
            status = call(*given)
        except SystemExit as ended:
            status = ended.code
    return out.getvalue(), status


class Words(InAFolder):
    def test_words_that_are_known(self):
        given = words_given(["small", "--jobs", "2", "count", "sum"])
        self.assertEqual((given.crate, given.words, given.jobs), ("small", ["count", "sum"], 2))

    def test_words_that_are_not_known_are_refused(self):
        for words in (["--fast"], ["--job", "2"], ["--jobs", "none"], ["--jobs", "0"], ["--save", "/nowhere/at/all"]):
            self.assertEqual(said_by(words_given, words)[1], 2, words)

    def test_help(self):
        text, status = said_by(main, ["--help"])
        self.assertEqual(status, 0)
        self.assertIn("When an edit counts as refused", text)

    def test_crates_and_edits_that_are_not_there(self):
        self.lay_edit("a_sum", "shop::add", "one + other;", "one;")
        small = self.small()
        self.assertEqual(unknown_word([], words_given(["other"])), "no crate is named other")
        self.assertEqual(unknown_word([small], words_given(["small", "count"])), "no edit of small has 'count' in its name")
        self.assertIsNone(unknown_word([small], words_given(["small", "sum"])))


class Reading(InAFolder):
    def test_bad_edits_are_told_without_a_prover(self):
        self.lay_edit("a_sum", "shop::add", "one + other;", "one;")
        self.assertEqual(said_by(read, [self.small()], []), ("1 edits read well, 0 bad\n", 0))
        self.lay_edit("b_sum", "shop::add", "gone", "one;")
        text, status = said_by(read, [self.small()], [])
        self.assertEqual(status, 1)
        self.assertTrue(text.startswith("small/b_sum.edit: BAD EDIT: an 'old:' text"))
        self.assertTrue(text.endswith("1 edits read well, 1 bad\n"))


class Toolchains(unittest.TestCase):
    def test_another_toolchain_is_told_at_once(self):
        toolchain.script.cache_clear()
        self.addCleanup(toolchain.script.cache_clear)
        with patch.object(toolchain, "identity", lambda: "rattle-kit-99 logic 0"):
            text, status = said_by(main, [])
        self.assertEqual(status, 2)
        self.assertEqual(text.count("\n"), 1)
        self.assertIn("rattle-kit-99", text)
        self.assertIn(toolchain.KNOWN[0], text)

    def test_each_known_toolchain_is_taken(self):
        for name in toolchain.KNOWN:
            toolchain.require_known(f"{name} logic 0")
        with self.assertRaises(toolchain.OtherToolchain):
            toolchain.require_known("rattle-kit-13 logic 0")

    def test_no_toolchain(self):
        toolchain.script.cache_clear()
        self.addCleanup(toolchain.script.cache_clear)
        with patch.dict("os.environ", {"PATH": "/nowhere"}):
            text, status = said_by(main, [])
        self.assertEqual((status, text.count("\n")), (2, 1))


class Stamps(unittest.TestCase):
    """Five crates, each on all that are before it: 16 ways lead down from the last one to itself and those below."""

    def setUp(self):
        self.summed, self.crates = [], []
        for at in range(5):
            self.crates.append(SimpleNamespace(folder=f"/crates/{at}", name=at, deps=[*self.crates]))
        self.stamps = toolchain.Stamps(self.sum)

    def sum(self, crate):
        self.summed.append(crate.name)
        return 1 + sum(self.stamps.of(dep) for dep in crate.deps)

    def test_each_crate_is_summed_once(self):
        self.assertEqual(self.stamps.of(self.crates[4]), 16)
        self.assertEqual(sorted(self.summed), [0, 1, 2, 3, 4])

    def test_a_later_sum_is_made_anew(self):
        self.stamps.of(self.crates[1])
        self.stamps.of(self.crates[1])
        self.assertEqual(self.summed, [1, 0, 1, 0])


class Together(InAFolder):
    def crate(self, name, edits, deps=()):
        for at in range(edits):
            self.lay(f"{name}/edits/{at}.edit", f"of: add\nfile: src/lib.rt\nold: one + {at};\nnew: one;\n")
        lines = "".join(f"    let sum = one + {at};\n" for at in range(edits))
        self.lay(f"{name}/src/lib.rt", f"fn add(one: u64) {{\n{lines}}}\n")
        return Crate(name, f"{self.room}/{name}", deps=[*deps])

    def test_a_crate_is_not_there_twice(self):
        low = self.crate("low", 1)
        middle = self.crate("middle", 1, [low])
        high = self.crate("high", 1, [middle])
        self.assertTrue(go_together([low, middle]))
        self.assertTrue(go_together([low, middle, high]))
        self.assertFalse(go_together([low, high]))

    def test_crates_wait_until_there_are_enough_edits(self):
        few, more = self.crate("few", 25), self.crate("more", 50)
        waiting = Waiting([])
        waiting.add(few)
        self.assertEqual(waiting.together(), [])
        waiting.add(more)
        self.assertEqual(waiting.take(), [few, more])
        waiting.add(few)
        waiting.end()
        self.assertEqual(waiting.take(), [few])
        self.assertEqual(waiting.take(), [])

    def test_there_is_a_most(self):
        many, more = self.crate("many", 59), self.crate("more", 90)
        waiting = Waiting([])
        waiting.add(many)
        waiting.add(more)
        self.assertEqual(waiting.take(), [many])


class Reports(unittest.TestCase):
    def closed(self, ends, files, left=0):
        report = Report()

        def run():
            report.leave(left)
            for is_well, is_control in ends:
                report.controls += is_control
                report.end(SimpleNamespace(name="small"), "a.edit", is_well, "refused")
            return report.close(files)

        return said_by(run)

    def test_all_well(self):
        text, status = self.closed([(True, False), (True, True)], ["a", "b"])
        self.assertEqual(status, 0)
        self.assertTrue(text.endswith("2 edits passed, 0 failed\n"))

    def test_one_that_failed_is_told_once_more(self):
        text, status = self.closed([(False, False)], [])
        self.assertEqual(status, 1)
        self.assertIn("once more: small/a.edit", text)

    def test_no_edit_one_left_out_and_no_control_fail(self):
        self.assertEqual(self.closed([], [])[1], 1)
        self.assertEqual(self.closed([(True, True)], ["a", "b"])[1], 1)
        self.assertEqual(self.closed([(True, False)], ["a"])[1], 1)

    def test_what_is_left_to_other_turns_is_counted(self):
        text, status = self.closed([(True, True)], ["a", "b", "c"], left=2)
        self.assertEqual(status, 0)
        self.assertIn("2 edits wait for another turn", text)
        self.assertEqual(self.closed([(True, True)], ["a", "b", "c"], left=1)[1], 1)
