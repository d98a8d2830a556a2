"""What is believed of a check, by what it says and how it ends."""

from subprocess import CompletedProcess
from unittest.mock import patch

from .. import judging, toolchain
from ..edit_files import Edit
from ..judging import LOST, judge_rounds, refusal_of
from ..rounds import Round
from ..verdicts import Told
from .made_up import Crate, InAFolder

ADD = "small::shop::add"
REFUSED = f"fn {ADD}: not proved: `search` did not prove `returns`"
END = "only=1 proved=0"


class Judging(InAFolder):
    def setUp(self):
        super().setUp()
        self.unread, self.stale = False, False
        for name, answer in (("cannot_be_read", lambda *_: self.unread), ("has_stale_library", lambda *_: self.stale)):
            made = patch.object(toolchain, name, answer)
            made.start()
            self.addCleanup(made.stop)

    def judged(self, *lines, status=1):
        small, edit = Crate("small", self.room), Edit("a.edit", frozenset({ADD}))
        ran = CompletedProcess([], status, "\n".join(lines))
        with patch.object(judging, "check", lambda *given: ran):
            return judge_rounds({small: Round({edit: edit.functions})})[small]

    def test_a_check_that_came_to_its_end_is_believed(self):
        told, why = self.judged(REFUSED, END)
        self.assertEqual(({*told.refused}, why), ({ADD}, None))

    def test_one_that_broke_off_is_not(self):
        for lines, status in (([REFUSED], 1), ([REFUSED, END], 101), (["src/shop.rt:1:1: error: no such name"], 2)):
            told, why = self.judged(*lines, status=status)
            self.assertIsNone(told)
            self.assertIn("did not come to its end", why)

    def test_one_that_does_not_tell_of_a_function_is_not(self):
        self.assertEqual(self.judged("fn small::shop::other: proved", END), (None, f"nothing was told of {ADD}"))

    def test_one_that_refuses_another_function_is_not(self):
        for other in (REFUSED.replace("add", "other"), "struct small::shop::Shop: its invariant is refused", "fn low::first: not proved"):
            told, why = self.judged(REFUSED, other, END)
            self.assertIsNone(told, other)
            self.assertIn("refused, and", why)

    def test_one_of_a_text_that_the_prover_cannot_read_is_not(self):
        self.unread = True
        self.assertIn("cannot read it", self.judged(REFUSED, END)[1])
        self.unread, self.stale = False, True
        self.assertIn("kept work", self.judged(REFUSED, END)[1])

    def test_the_end_of_an_edit_that_is_tried_alone(self):
        edit = Edit("a.edit", frozenset({ADD}))
        self.assertEqual(refusal_of(edit, Told(refused={ADD: "it differs"})), (True, "it differs"))
        self.assertEqual(refusal_of(edit, Told(lost={ADD}, refused={"small::shop::other": "why"})), (False, LOST))
        self.assertFalse(refusal_of(edit, Told(refused={"small::shop::other": "why"}))[0])
