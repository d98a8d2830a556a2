"""Trials of a crate's edits, with a made-up prover: a function from what a check is asked to what it says."""

from subprocess import CompletedProcess
from unittest.mock import patch

from .. import judging, toolchain, trial
from ..edit_files import edits_of
from ..trial import Trial
from .made_up import InAFolder

REFUSED = "fn {}: not proved: `search` did not prove `returns`"


class Prover:
    """Refuses these functions, says of each other one that it is proved, and keeps what it was asked."""

    def __init__(self, refused=(), breaks_off=lambda tried: None, waiting=()):
        self.refused, self.breaks_off, self.waiting, self.asked = {*refused}, breaks_off, {*waiting}, []

    def line(self, name):
        if name.partition("_spoiled_")[0] in self.waiting:
            return f"fn {name}: not proved; it calls `small::shop::other`, which is not proved"
        is_refused = any(name == it or name.startswith(f"{it}_spoiled_") for it in self.refused)
        return REFUSED.format(name) if is_refused else f"fn {name}: proved"

    def check(self, rounds, functions=(), kept=None):
        ((_, tried),) = rounds.items()
        self.asked.append(tried)
        why = self.breaks_off(tried)
        if why:
            return CompletedProcess([], 2, why)
        names = functions or [*tried.functions()]
        lines = [self.line(name) for name in sorted(names)]
        is_refused = any("not proved" in line for line in lines)
        end = f"only={len(names)} proved=0" if functions else "logic=not-proved" if is_refused else "logic=proved"
        return CompletedProcess([], int(is_refused), "\n".join([*lines, end]))


class Trials(InAFolder):
    def setUp(self):
        super().setUp()
        self.said = []
        for name, answer in (("cannot_be_read", False), ("has_stale_library", False)):
            made = patch.object(toolchain, name, lambda *given, it=answer: it)
            made.start()
            self.addCleanup(made.stop)

    def ends(self, prover, is_proved=True):
        small = self.small()
        edits, bad = edits_of(small, [])
        self.assertEqual(bad, [])
        with patch.object(judging, "check", prover.check), patch.object(trial, "check", prover.check):
            tried = Trial(small, edits, is_proved, self.said.append)
            return {edit.name.partition(".")[0]: (is_well, why) for edit, is_well, why in tried.ends()}

    def lay_two(self):
        self.lay_edit("a_sum", "shop::add", "one + other;", "one;")
        self.lay_edit("b_take", "shop::Shop::take", "self.parts.pop()", "None", "src/shop/steps.rt")

    def test_all_are_decided_by_one_check(self):
        self.lay_two()
        prover = Prover(["small::shop::add", "small::shop::Shop::take"])
        ends = self.ends(prover)
        self.assertEqual([is_well for is_well, _ in ends.values()], [True, True])
        self.assertEqual(len(prover.asked), 1)
        self.assertTrue(prover.asked[0].is_emptied)

    def test_what_no_check_refuses_is_tried_alone_and_fails(self):
        self.lay_two()
        prover = Prover(["small::shop::add"])
        ends = self.ends(prover)
        self.assertTrue(ends["a_sum"][0])
        self.assertEqual(ends["b_take"], (False, "FAILED: NOT REFUSED: the crate is still proved with it"))
        self.assertEqual([it.is_emptied for it in prover.asked], [True, False, False])

    def test_a_round_that_breaks_off_is_split(self):
        self.lay_two()
        prover = Prover(["small::shop::add", "small::shop::Shop::take"], lambda tried: "killed" if len(tried.names) > 1 else None)
        ends = self.ends(prover)
        self.assertEqual([is_well for is_well, _ in ends.values()], [True, True])
        self.assertTrue(any("a round of 2 is split" in line for line in self.said))

    def test_a_copy_that_is_not_taken_by_the_front_end_is_tried_alone(self):
        self.lay_two()

        def breaks_off(tried):
            lines = tried.texts.get("src/shop.rt", "").split("\n")
            return f"src/shop.rt:{lines.index('    let sum = one;') + 1}:9: error: no" if "    let sum = one;" in lines else None

        ends = self.ends(Prover(["small::shop::Shop::take"], breaks_off))
        self.assertTrue(ends["b_take"][0])
        self.assertFalse(ends["a_sum"][0])
        self.assertIn("no contract was tried", ends["a_sum"][1])

    def test_what_only_waits_is_no_refusal(self):
        self.lay_two()
        prover = Prover(["small::shop::add"], waiting=["small::shop::Shop::take"])
        is_well, why = self.ends(prover)["b_take"]
        self.assertFalse(is_well)
        self.assertIn("no function that it names refuses it for a reason of its own", why)

    def test_a_control(self):
        self.lay_edit("a_sum", "shop::add", "one + other;", "other + one;", more="harmless: the same\n")
        self.assertEqual(self.ends(Prover())["a_sum"][0], True)
        is_well, why = self.ends(Prover(["small::shop::add"]))["a_sum"]
        self.assertFalse(is_well)
        self.assertIn("TAKEN FOR WRONG", why)

    def test_a_function_that_is_not_proved_as_it_stands(self):
        self.lay_two()
        prover = Prover(["small::shop::add"])
        ends = self.ends(prover, is_proved=False)
        self.assertTrue(any("not proved as it stands" in line for line in self.said))
        self.assertEqual([is_well for is_well, _ in ends.values()], [True, False])

    def test_copies_as_they_stand(self):
        self.lay_two()
        self.lay_edit("c_clone", "shop::ShopClone::clone", "self.parts.clone()", "Vec::new()")
        small = self.small()
        edits = edits_of(small, [])[0]
        for refused, well in (([], [True, True]), (["small::shop::add"], [False, True])):
            prover = Prover(refused)
            with patch.object(judging, "check", prover.check):
                ends = [*Trial(small, edits, True, self.said.append, is_spoiled=False).unspoiled_ends()]
            self.assertEqual([is_well for _, is_well, _ in ends], well)
            self.assertEqual([len(it.names) for it in prover.asked], [2, 3])
            self.assertNotIn("let sum = one;", prover.asked[0].texts["src/shop.rt"])

    def test_a_stale_goal_costs_no_edit(self):
        self.lay_edit("a_sum", "shop::add", "one + other;", "one;", more="goal: returns c\n")
        prover = Prover(["small::shop::add"])
        self.assertTrue(self.ends(prover)["a_sum"][0])
        self.assertEqual(len(prover.asked), 2)
        self.assertIn("a_sum.edit is tried with all goals: that which it names does not tell", self.said)
