import contextlib
import io
import threading
import unittest
from types import SimpleNamespace
from unittest.mock import Mock, patch

from ..command import Libraries, NotProved, Proving, main, words_given
from ..crates import PROGRAM
from ..schedule import Plan

BELOW = {"low": [], "side": [], "top": ["low", "side"]}
COSTS = {"low": 10, "side": 10, "top": 10}


def said_by(call, *given):
    """What a call writes on both streams, and its status."""
    out = io.StringIO()
    with contextlib.redirect_stdout(out), contextlib.redirect_stderr(out):
        try:
            status = call(*given)
        except SystemExit as ended:
            status = ended.code
    return out.getvalue(), status


class Words(unittest.TestCase):
    def test_words_that_are_not_known_are_refused(self):
        for words in (["mrp"], ["--lane", "2"], ["--lanes", "0"], ["--lanes", "all"]):
            self.assertEqual(said_by(words_given, words)[1], 2, words)

    def test_help(self):
        text, status = said_by(main, ["--help"])
        self.assertEqual(status, 0)
        self.assertIn("about 18 minutes left", text)

    def test_a_program_that_is_up_to_date_has_nothing_said_of_it(self):
        for why, said in ((None, ""), ("bin/mrp is not built", "bin/mrp is not built\n")):
            with patch("proof_runner.command.why_stale", return_value=why):
                self.assertEqual(said_by(main, ["--stale"]), (said, 0))


class Shared(unittest.TestCase):
    def libraries_of(self, **names):
        """The libraries below the program, by a toolchain whose script has these names."""
        program = SimpleNamespace(name=PROGRAM, below=lambda: [SimpleNamespace(name="low"), SimpleNamespace(name="top")])
        toolchain = {"script": lambda: SimpleNamespace(rtlib=None, **names), "crates_below": lambda top: [program]}
        with patch.multiple("proof_runner.command.toolchain", **toolchain):
            return [*Libraries().crates]

    def test_what_another_checkout_proved_is_shared(self):
        share = Mock()
        self.assertEqual(self.libraries_of(share_work=share), ["low", "top"])
        share.assert_called_once_with(True)

    def test_a_toolchain_that_keeps_no_shared_work_has_the_libraries_too(self):
        self.assertEqual(self.libraries_of(), ["low", "top"])


class Run(unittest.TestCase):
    def prove(self, build, lanes=2):
        self.order, lock = [], threading.Lock()

        def note(name, jobs):
            with lock:
                self.order.append(name)
            return build(name)

        proving = Proving(Plan(BELOW, COSTS, lanes), note)
        return said_by(proving.run)[0]

    def test_all_are_proved_those_below_first(self):
        said = self.prove(lambda name: True)
        self.assertEqual(({*self.order[:2]}, self.order[2:]), ({"low", "side"}, ["top"]))
        self.assertTrue(said.startswith("crate 1 of 3, "), said)

    def test_those_below_are_proved_at_the_same_time(self):
        meeting = threading.Barrier(2, timeout=10)
        self.prove(lambda name: name == "top" or meeting.wait() >= 0)
        self.assertEqual(len(self.order), 3)

    def test_nothing_starts_after_one_that_is_not_proved(self):
        with self.assertRaises(NotProved) as failed:
            self.prove(lambda name: name != "low", lanes=1)
        self.assertEqual((str(failed.exception), self.order), ("low", ["low"]))


if __name__ == "__main__":
    unittest.main()
