from ..copies import copies_of
from ..edit_files import Edit, Goal, edits_of
from ..rounds import Round, empty_round, not_in_the_way, round_of
from ..verdicts import Told
from .made_up import InAFolder


class Rounds(InAFolder):
    def lay_all(self):
        self.lay_edit("a_sum", "shop::add", "one + other;", "one;")
        self.lay_edit("b_clone", "shop::ShopClone::clone", "self.parts.clone()", "Vec::new()")
        self.lay_edit("c_take", "shop::Shop::take", "self.parts.pop()", "None", "src/shop/steps.rt")
        small = self.small()
        edits = edits_of(small, [])[0]
        copies = {edit: made for at, edit in enumerate(edits) if (made := copies_of(small, edit, at))}
        return small, edits, copies

    def test_copies_and_edits_in_place_make_one_round(self):
        small, edits, copies = self.lay_all()
        tried = round_of(small, edits, copies)
        self.assertIn("Shop { parts: Vec::new() }", tried.texts["src/shop.rt"])
        self.assertIn("fn add_spoiled_0", tried.texts["src/shop.rt"])
        self.assertIn("fn take_spoiled_2", tried.texts["src/shop/steps.rt"])
        self.assertEqual(tried.functions(), {"small::shop::add_spoiled_0", "small::shop::ShopClone::clone", "small::shop::Shop::take_spoiled_2"})

    def test_a_round_without_other_bodies(self):
        small, edits, copies = self.lay_all()
        tried = empty_round(small, round_of(small, edits, copies))
        self.assertTrue(tried.is_emptied)
        self.assertEqual(sorted("::".join(it) for it in tried.empty), ["shop::Shop::count", "shop::Shop::take", "shop::add"])
        self.assertIn("let sum = one;", tried.texts["src/shop.rt"])
        self.assertNotIn("let sum = one + other;", tried.texts["src/shop.rt"])
        self.assertIn("even(number - 1)", tried.texts["src/shop/steps.rt"])

    def test_a_program_becomes_a_library(self):
        tool = self.program()
        tried = empty_round(tool, Round())
        self.assertNotIn("fn main", tried.texts["src/main.rt"])
        self.assertEqual(tried.empty, [["twice"]])

    def test_errors_of_the_front_end_lie_in_copies(self):
        small, edits, copies = self.lay_all()
        tried = round_of(small, edits, copies)
        line = tried.texts["src/shop.rt"].split("\n").index("    let sum = one;") + 1
        self.assertEqual(tried.in_error([f"src/shop.rt:{line}:9: error: no such name", "src/shop.rt:1:1: error: other"]), edits[:1])

    def test_edits_in_place_that_go_together(self):
        self.lay_edit("a", "shop::ShopClone::clone", "Shop { parts: self.parts.clone() }", "self")
        self.lay_edit("b", "shop::ShopClone::clone", "self.parts.clone()", "Vec::new()")
        self.lay_edit("c", "shop::steps::odd", "number > 0", "number > 1", "src/shop/steps.rt")
        small = self.small()
        first, second, third = edits_of(small, [])[0]
        self.assertEqual(not_in_the_way(small, [first, second, third], {}), [first, third])
        waits = {"small::shop::steps::odd": {"small::shop::ShopClone::clone"}}
        self.assertEqual(not_in_the_way(small, [first, third], waits), [first])
        self.assertEqual(not_in_the_way(small, [first], waits, beside=[third]), [])

    def test_a_goal_refuses_where_it_is_one_of_the_function_as_it_stands(self):
        self.lay_edit("a", "shop::add", "one + other;", "one;", more="goal: returns c\n")
        small = self.small()
        (edit,) = edits_of(small, [])[0]
        tried = round_of(small, [edit], {edit: copies_of(small, edit, 0)})
        self.assertEqual(tried.goals(), {"small::shop::add_spoiled_0": ["returns"], "small::shop::add_as_it_stands": ["returns"]})
        not_shown = {("small::shop::add_spoiled_0", "returns"): "it differs"}
        told = Told(not_shown=not_shown)
        tried.settle(told)
        self.assertEqual(told.refused, {})
        told = Told(not_shown=not_shown, shown={("small::shop::add_as_it_stands", "returns")})
        tried.settle(told)
        self.assertEqual(told.refused, {"small::shop::add_spoiled_0": "it differs"})

    def test_a_written_answer_refuses_by_itself(self):
        self.lay("small/proofs/shop/add/Answers.antt", "pub returns : goal.returns\n")
        self.lay_edit("a", "shop::add", "one + other;", "one;", more="goal: returns\n")
        small = self.small()
        (edit,) = edits_of(small, [])[0]
        self.assertEqual(edit.goal, Goal("returns"))
        tried = round_of(small, [edit], {edit: copies_of(small, edit, 0)})
        told = Told(not_shown={("small::shop::add_spoiled_0", "returns"): "it differs"})
        tried.settle(told)
        self.assertEqual({*told.refused}, {"small::shop::add_spoiled_0"})

    def test_a_round_of_nothing(self):
        self.assertEqual(Round().functions(), frozenset())
        self.assertEqual(Round({Edit("a"): frozenset({"f"})}).functions(), {"f"})
