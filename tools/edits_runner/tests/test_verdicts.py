import unittest

from ..verdicts import joined, lines_of, told_by
from .made_up import Crate

SMALL = Crate("small", "/nowhere")
ADD, COPY = "small::shop::add", "small::shop::add_spoiled_0"
DIFFERS = "proofs/shop/add_spoiled_0/Answers.antt:3:1: error: `returns`: the two values first differ at `one`"


def told(*lines, functions=(COPY,), **how):
    return told_by(SMALL, lines, frozenset(functions), **how)


class Lines(unittest.TestCase):
    def test_what_goes_on_is_joined(self):
        self.assertEqual(joined("fn a: not proved;\n  it calls `b`\nfn b: proved\n"), ["fn a: not proved; it calls `b`", "fn b: proved"])

    def test_files_are_named_from_the_crates_folder(self):
        text = "note: small/src/shop.rt:1:2: here\nsmall/proofs/a.antt:1:1: error: no\nother/src/a.rt\n"
        self.assertEqual(lines_of(SMALL, text), ["note: src/shop.rt:1:2: here", "proofs/a.antt:1:1: error: no", "other/src/a.rt"])


class Functions(unittest.TestCase):
    def test_a_goal_that_search_does_not_prove_refuses(self):
        said = told("note: src/shop.rt:9:1: the ensures", f"fn {COPY}: not proved: `search` did not prove `returns`", f"fn {ADD}: proved")
        self.assertEqual(said.refused, {COPY: "src/shop.rt:9:1: the ensures"})
        self.assertEqual(said.seen, {COPY, ADD})

    def test_a_place_is_of_the_next_function_alone(self):
        said = told("note: src/shop.rt:9:1: here", f"fn {ADD}: proved", f"fn {COPY}: not proved: `search` did not prove `returns`")
        self.assertEqual(said.refused, {COPY: f"fn {COPY}: not proved: `search` did not prove `returns`"})

    def test_a_written_proof_that_does_not_fit_refuses(self):
        said = told(DIFFERS, f"fn {COPY}: not proved")
        self.assertEqual(said.refused, {COPY: DIFFERS})

    def test_a_written_proof_that_lost_a_name_is_no_refusal(self):
        said = told(DIFFERS, DIFFERS.replace("the two values first differ at `one`", "`sum` is not in scope"), f"fn {COPY}: not proved")
        self.assertEqual((said.refused, said.lost), ({}, {COPY}))

    def test_what_rests_on_what_is_not_admitted_is_no_refusal(self):
        said = told(DIFFERS, DIFFERS.replace("the two values first differ", "`Other.lemma` was not admitted"), f"fn {COPY}: not proved")
        self.assertEqual((said.refused, said.lost), ({}, set()))

    def test_a_function_that_only_waits_is_not_refused(self):
        waits = f"fn {COPY}: not proved; it calls `small::shop::other`, which is not proved"
        said = told(waits)
        self.assertEqual((said.refused, said.waiting), ({}, {COPY: {"small::shop::other"}}))

    def test_a_function_that_waits_and_lost_a_name_waits(self):
        waits = f"fn {COPY}: not proved; it calls `small::shop::other`, which is not proved"
        said = told(DIFFERS.replace("the two values first differ at `one`", "`sum` is not in scope"), waits)
        self.assertEqual((said.lost, {*said.waiting}), (set(), {COPY}))

    def test_a_closure_refuses_its_function(self):
        said = told("fn small::shop::fn::add_spoiled_0::closure: not proved: `search` did not prove `calls`")
        self.assertEqual({*said.refused}, {COPY})

    def test_another_function_that_is_refused_is_told(self):
        line = "fn small::shop::other: the borrow checker refuses it"
        self.assertEqual(told(line).others, [line])
        line = "struct small::shop::Shop: its invariant is refused"
        self.assertEqual(told(line).others, [line])
        self.assertEqual(told("fn low::shop::other: not proved").others, [])

    def test_what_depends_on_an_open_proof_is_fine(self):
        said = told(f"fn {COPY}: depends on a hole in `small::shop::other`", "struct small::shop::Shop: proved")
        self.assertEqual((said.not_proved(), said.others), (set(), []))


class Goals(unittest.TestCase):
    LEFT = f"fn {COPY}: not proved: `#[tactic(none)]` leaves `ends`, `index` alone"

    def test_a_goal_that_is_not_left_is_shown(self):
        said = told(self.LEFT, goals={COPY: ["returns"]})
        self.assertEqual((said.shown, said.refused), ({(COPY, "returns")}, {}))

    def test_a_goal_that_is_left_is_not_shown(self):
        self.assertEqual(told(self.LEFT, goals={COPY: ["ends"]}).shown, set())

    def test_an_answer_that_does_not_show_its_goal(self):
        said = told(DIFFERS, self.LEFT, goals={COPY: ["returns"]})
        self.assertEqual((said.shown, said.not_shown), (set(), {(COPY, "returns"): DIFFERS}))

    def test_an_answer_of_which_one_error_is_that_it_does_not_read_says_nothing(self):
        unread = DIFFERS.replace("the two values first differ at `one`", "`sum` is not in scope")
        for errors in ((DIFFERS, unread), (unread, DIFFERS)):
            self.assertEqual(told(*errors, self.LEFT, goals={COPY: ["returns"]}).not_shown, {}, errors)

    def test_an_answer_that_does_not_read_says_nothing(self):
        said = told(DIFFERS.replace("the two values first differ at `one`", "`sum` is not in scope"), self.LEFT, goals={COPY: ["returns"]})
        self.assertEqual((said.shown, said.not_shown), (set(), {}))
