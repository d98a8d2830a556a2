from ..copies import copies_of, lay_copies, lay_proof, leave_open, standing_copies
from ..edit_files import edits_of
from .made_up import InAFolder


class Copies(InAFolder):
    def copies(self, **how):
        small = self.small()
        (edit,) = edits_of(small, [])[0]
        return small, edit, copies_of(small, edit, 7, **how)

    def test_a_copy_has_the_edit_and_a_name_of_its_own(self):
        self.lay_edit("x", "shop::add", "one + other;", "one;")
        small, _, (copy,) = self.copies()
        self.assertEqual(copy.path, "small::shop::add_spoiled_7")
        self.assertEqual(copy.original, "small::shop::add")
        self.assertIn("pub fn add_spoiled_7(one: u64, other: u64) -> u64", copy.lines)
        self.assertIn("    let sum = one;", copy.lines)
        text = lay_copies(small, [copy], {})["src/shop.rt"]
        self.assertTrue(text.startswith(self.read("small/src/shop.rt").rstrip("\n")))
        self.assertTrue(text.rstrip("\n").endswith("\n".join(copy.lines)))

    def test_a_copy_as_it_stands(self):
        self.lay_edit("x", "shop::add", "one + other;", "one;")
        _, _, (copy,) = self.copies(is_spoiled=False)
        self.assertIn("    let sum = one + other;", copy.lines)

    def test_copies_of_several_functions_of_a_file(self):
        self.lay_edit("a", "shop::add", "one + other;", "one;")
        self.lay_edit("b", "shop::Shop::count", "self.parts.len()", "0")
        small = self.small()
        made = [copy for at, edit in enumerate(edits_of(small, [])[0]) for copy in copies_of(small, edit, at)]
        text = lay_copies(small, made, {})["src/shop.rt"]
        self.assertEqual([text.count(name) for name in ("fn add_spoiled_0", "fn count_spoiled_1", "fn add(", "fn count(")], [1] * 4)

    def test_what_has_no_copy(self):
        self.lay_edit("x", "shop::ShopClone::clone", "Shop { parts: self.parts.clone() }", "Shop { parts: Vec::new() }")
        self.assertIsNone(self.copies()[2])

    def test_a_goal_leaves_the_other_goals_alone(self):
        self.lay_edit("x", "shop::Shop::count", "self.parts.len()", "0", more="goal: returns c\n")
        small, edit, (copy,) = self.copies()
        self.assertIn("    #[tactic(none)]", copy.lines)
        self.assertFalse(any("tactic(auto" in line for line in copy.lines))
        (standing,) = standing_copies(small, [edit, edit])
        self.assertEqual(standing.path, "small::shop::Shop::count_as_it_stands")
        self.assertTrue(standing.is_as_it_stands() and not copy.is_as_it_stands())
        self.assertIn("        self.parts.len()", standing.lines)
        self.assertEqual(len(standing.goals), 1)


class Proofs(InAFolder):
    def copy(self, more=""):
        self.lay_edit("x", "shop::Shop::take", "self.parts.pop()", "None", "src/shop/steps.rt", more)
        small = self.small()
        return copies_of(small, edits_of(small, [])[0][0], 0)[0]

    def test_a_written_proof_is_laid_under_the_copys_name(self):
        copy = self.copy()
        self.lay("laid/proofs/shop/Shop/take/Answers.antt", "use Rattle.small.proofs.shop.Shop.take.Goals as goal\nuse Rattle.small.proofs.shop.Shop.take-more\n")
        self.lay("laid/proofs/shop/Shop/fn/take/Invariants.antt", "use Rattle.small.proofs.shop.Shop.fn.take.Goals as goal\n")
        lay_proof(f"{self.room}/laid", copy)
        self.assertEqual(
            self.read("laid/proofs/shop/Shop/take_spoiled_0/Answers.antt"),
            "use Rattle.small.proofs.shop.Shop.take_spoiled_0.Goals as goal\nuse Rattle.small.proofs.shop.Shop.take-more\n",
        )
        self.assertIn("Shop.fn.take_spoiled_0.Goals", self.read("laid/proofs/shop/Shop/fn/take_spoiled_0/Invariants.antt"))
        self.assertIn("Shop.take.Goals", self.read("laid/proofs/shop/Shop/take/Answers.antt"))

    def test_a_goal_without_an_answer_gets_the_first_ways(self):
        copy = self.copy("goal: returns c\n")
        copy.hints = ["    #[tactic(auto, using(crate::proofs::Shop::taken), unfolding(std::specs::total))]"]
        self.lay("laid/proofs/shop/Shop/take/Answers.antt", "use Rattle.std.proofs.Common.{rules, suc}\n")
        lay_proof(f"{self.room}/laid", copy)
        text = self.read("laid/proofs/shop/Shop/take_spoiled_0/Answers.antt")
        self.assertEqual(text.count("rules}") + text.count("{rules"), 1)
        self.assertIn("use Rattle.small.proofs.Shop.{taken}\n", text)
        self.assertIn("use Rattle.std.specs.{total}\n", text)
        self.assertIn("pub returns : goal.returns\nunfolding total\nreturns c = first_of (search rules, grind (arith, taken), grind (arith, common_steps))\n", text)

    def test_a_proof_is_left_open(self):
        self.lay("laid/proofs/shop/add/Answers.antt", "old\n")
        self.lay("laid/proofs/shop/add/inner/Answers.antt", "of a module of this name\n")
        leave_open(f"{self.room}/laid", self.small(), ["shop", "add"])
        self.assertIn("add_spec = ?", self.read("laid/proofs/shop/add/Proof.antt"))
        self.assertIn("Rattle.small.proofs.shop.add.Statement", self.read("laid/proofs/shop/add/Proof.antt"))
        self.assertIn("of a module", self.read("laid/proofs/shop/add/inner/Answers.antt"))
        with self.assertRaises(OSError):
            self.read("laid/proofs/shop/add/Answers.antt")
