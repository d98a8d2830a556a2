import os
import sys
from unittest.mock import patch

from .. import toolchain
from ..checks import Checks, lay_round, run_check, words_over
from ..rounds import Round
from .made_up import Crate, InAFolder


class Laying(InAFolder):
    def test_a_crate_is_laid_with_a_rounds_texts(self):
        small = self.small()
        self.lay("small/specs/Shop.antt", "total : ℕ\n")
        self.lay("small/edits/a.edit", "not read\n")
        with patch.object(toolchain, "parts_of_a_crate", lambda: ("src", "specs", "proofs")):
            lay_round(f"{self.room}/laid", small, Round(texts={"src/shop.rt": "changed\n"}, empty=[["shop", "add"]]))
        self.assertEqual(self.read("laid/src/shop.rt"), "changed\n")
        self.assertEqual(self.read("laid/specs/Shop.antt"), "total : ℕ\n")
        self.assertIn("add_spec = ?", self.read("laid/proofs/shop/add/Proof.antt"))
        self.assertFalse(os.path.exists(f"{self.room}/laid/edits"))

    def test_crates_are_handed_over_as_libraries_in_source(self):
        low = Crate("low", "/crates/low", of_kit=["std"])
        small, tool = Crate("small", "/crates/small", deps=[low], of_kit=["std"]), Crate("tool", "/crates/tool", True, [low])
        with patch.object(toolchain, "folder", lambda: "/kit"):
            words = " ".join(words_over([small, tool], self.room))
        self.assertIn(f"--lib small:std,low={self.room}/small/src/lib.rt", words)
        self.assertIn(f"--lib tool:low={self.room}/tool/src/main.rt", words)
        self.assertEqual(words.count("--extern low=/crates/low/out/rlib/low.rlib"), 1)
        self.assertTrue(os.path.exists(f"{self.room}/nothing/src/lib.rt"))


class Running(InAFolder):
    def test_what_a_check_says_and_how_it_ends(self):
        self.lay("prover.py", "import sys\nprint('checked small::a, 1 of 2')\nprint('checked small::b, 2 of 2')\nprint(sys.argv[1])\nsys.exit(1)\n")
        with patch.object(toolchain, "checker", lambda: [sys.executable, f"{self.room}/prover.py"]):
            ran, times = run_check(["word"], self.room, [Crate("small", self.room)])
        self.assertEqual((ran.returncode, ran.stdout.splitlines()[-1]), (1, "word"))
        self.assertEqual([*times], ["small::a", "small::b"])

    def test_costs_are_shared_by_the_functions_times(self):
        small, low, checks = Crate("small", "/small"), Crate("low", "/low"), Checks()
        checks.share_out([small, low], {"small::a": 3, "low::b": 1}, 8)
        checks.share_out([small], {}, 2)
        self.assertEqual((checks.cost_of(small).seconds, checks.cost_of(low).seconds), (8, 2))
        self.assertEqual((checks.cost_of(small).checks, checks.cost_of(low).checks), (2, 1))
        self.assertEqual(checks.cost_of(small).longest(), "a 3 s")
