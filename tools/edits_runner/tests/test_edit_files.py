import os

from ..edit_files import BadEdit, Goal, edits_of, laid_on, parse_edit
from .made_up import SHOP, InAFolder

WHOLE = "of: shop::add\nfile: src/shop.rt\nold: one + other;\nnew: one;\n"


class Reading(InAFolder):
    def refused(self, text):
        with self.assertRaises(BadEdit) as refused:
            parse_edit("x.edit", text, self.small())
        return str(refused.exception)

    def test_a_whole_edit(self):
        edit = parse_edit("x.edit", WHOLE, self.small())
        self.assertEqual(edit.functions, {"small::shop::add"})
        self.assertEqual(edit.pairs, [("src/shop.rt", "one + other;", "one;")])
        self.assertFalse(edit.is_harmless)
        self.assertIsNone(edit.goal)

    def test_a_control_and_two_functions(self):
        edit = parse_edit("x.edit", "harmless: it is the same\nof: shop::Shop::take\n" + WHOLE, self.small())
        self.assertTrue(edit.is_harmless)
        self.assertEqual(edit.functions, {"small::shop::add", "small::shop::Shop::take"})

    def test_a_goal(self):
        small = self.small()
        self.assertEqual(parse_edit("x.edit", "goal: returns c\n" + WHOLE, small).goal, Goal("returns", "c"))
        self.assertIn("what an answer binds", self.refused("goal: returns\n" + WHOLE))
        self.lay("small/proofs/shop/add/Answers.antt", "pub returns : goal.returns\nreturns c = refl\n")
        self.assertEqual(parse_edit("x.edit", "goal: returns\n" + WHOLE, small).goal, Goal("returns"))
        self.assertIn("what an answer binds", self.refused("goal: returns c\n" + WHOLE))
        self.assertIn("a goal is one of one function", self.refused("of: shop::Shop::count\ngoal: returns\n" + WHOLE))

    def test_what_is_no_edit(self):
        self.assertIn("this line says nothing: what", self.refused("what: is this\n" + WHOLE))
        self.assertIn("no whole pair", self.refused("of: shop::add\n"))
        self.assertIn("no whole pair", self.refused(WHOLE + "old: sum\n"))
        self.assertIn("changes nothing", self.refused(WHOLE.replace("new: one;", "new: one + other;")))
        self.assertIn("no file of code", self.refused(WHOLE.replace("src/shop.rt", "specs/Shop.antt")))


class OfACrate(InAFolder):
    def bad(self):
        good, bad = edits_of(self.small(), [])
        self.assertEqual(good, [])
        return bad[0][1]

    def test_good_ones_by_their_words(self):
        self.lay_edit("a_sum_forgets_a_summand", "shop::add", "one + other;", "one;")
        self.lay_edit("a_count_of_none", "shop::Shop::count", "self.parts.len()", "0")
        self.lay("small/must-fail/README.md", "no edit\n")
        good, bad = edits_of(self.small(), [])
        self.assertEqual([edit.name for edit in good], ["a_count_of_none.edit", "a_sum_forgets_a_summand.edit"])
        self.assertEqual(bad, [])
        self.assertEqual([edit.name for edit in edits_of(self.small(), ["count"])[0]], ["a_count_of_none.edit"])

    def test_a_method_in_a_nested_module(self):
        self.lay_edit("none_is_taken", "shop::Shop::take", "self.parts.pop()", "None", "src/shop/steps.rt")
        self.assertEqual(len(edits_of(self.small(), [])[0]), 1)

    def test_a_text_that_stands_twice_or_nowhere(self):
        self.lay_edit("x", "shop::add", "sum", "one")
        self.assertIn("exactly once", self.bad())
        self.lay_edit("x", "shop::add", "product", "one")
        self.assertIn("exactly once", self.bad())

    def test_a_contract_is_not_edited(self):
        self.lay_edit("x", "shop::add", "result ≡ one + other", "result ≡ one")
        self.assertIn("outside the bodies", self.bad())

    def test_what_a_body_states_is_not_edited(self):
        text = SHOP.replace("    sum\n", "    prove!(sum == sum);\n    sum\n")
        self.lay_edit("x", "shop::add", "sum == sum", "sum == one")
        small = self.small()
        self.lay("small/src/shop.rt", text)
        good, bad = edits_of(small, [])
        self.assertEqual((good, len(bad)), ([], 1))
        self.assertIn("outside the bodies", bad[0][1])

    def test_another_function_than_the_one_it_names(self):
        self.lay_edit("x", "shop::add", "self.parts.len()", "0")
        self.assertIn("outside the bodies", self.bad())
        self.lay_edit("x", "shop::steps::Shop::take", "self.parts.pop()", "None", "src/shop/steps.rt")
        self.assertEqual(self.bad(), "it changes shop::Shop::take, which no line 'of:' names")

    def test_a_file_that_is_not_there(self):
        self.lay_edit("x", "market::add", "one + other;", "one;", "src/market.rt")
        self.assertIn("No such file", self.bad())

    def test_edits_are_laid_on_in_order(self):
        small = self.small()
        first = parse_edit("a", WHOLE, small)
        second = parse_edit("b", WHOLE.replace("one + other;", "let sum = one;").replace("new: one;", "new: let sum = 7;"), small)
        self.assertIn("let sum = 7;", laid_on(small, [first, second])["src/shop.rt"])
        self.assertIsNone(laid_on(small, [second, first]))
        self.assertTrue(os.path.exists(f"{small.folder}/src/shop.rt"))
