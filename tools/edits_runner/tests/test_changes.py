import os
import subprocess

from ..changes import Changes, changes_since
from .made_up import SHOP, InAFolder

SHOP_OPEN = """//! A shop that opens.

use core::mem::swap;
ghost use Rattle.one.specs.One.{total};

static HOURS: [u8; 2] =
    *b"\\x08\\x12";

#[tactic(auto, using(crate::proofs::One::counted))]
pub fn open(shop: &mut Shop) -> u64
    ensures { result ≡ total shop.old }
{
    // It is early.
    lights(shop) + 1
}

/// What the lights cost.
fn lights(shop: &Shop) -> u64
    ensures { result ≡ 2 }
{
    2
}
"""


class Since(InAFolder):
    """What has changed since a commit."""

    def git(self, *words):
        who = ["-c", "user.name=a", "-c", "user.email=a@b.c", "-c", "commit.gpgsign=false"]
        return subprocess.run(["git", "-C", self.room, *who, *words], check=True, capture_output=True, text=True).stdout.strip()

    def setUp(self):
        super().setUp()
        self.git("init", "-q")
        self.lay("crates.txt", "one:\n")
        self.lay("crates/one/src/lib.rt", "mod shop;\nmod opening;\n")
        self.lay("crates/one/src/shop.rt", SHOP)
        self.lay("crates/one/src/opening.rt", SHOP_OPEN)
        self.lay("crates/one/proofs/opening/open/Answers.antt", "-- It opens.\n")
        self.git("add", "-A")
        self.git("commit", "-q", "--no-verify", "-m", "so")
        self.first = self.git("rev-parse", "HEAD")

    def assert_changed(self, **changes):
        self.assertEqual(changes_since(self.room, self.first), Changes(**changes))

    def replace(self, old, new, file="opening"):
        text = self.read(f"crates/one/src/{file}.rt")
        self.assertIn(old, text)
        self.lay(f"crates/one/src/{file}.rt", text.replace(old, new))

    def test_nothing(self):
        self.assert_changed()

    def test_a_body(self):
        self.replace("lights(shop) + 1", "lights(shop)")
        self.assert_changed(functions={"one::opening::open"})

    def test_a_body_of_a_method(self):
        self.replace("        self.parts.len()", "        0", file="shop")
        self.assert_changed(functions={"one::shop::Shop::count"})

    def test_a_body_of_a_method_of_a_trait_that_keeps_it(self):
        self.replace("self.parts.clone()", "self.parts", file="shop")
        self.assert_changed(interfaces={"one"})

    def test_what_is_written_of_a_proof(self):
        self.lay("crates/one/proofs/opening/open/Answers.antt", "-- It opens late.\n")
        self.lay("crates/one/proofs/opening/fn/lights/Invariants.antt", "-- They are on.\n")
        self.assert_changed(functions={"one::opening::open", "one::opening::lights"})

    def test_where_to_look_for_a_proof(self):
        self.replace("counted))]", "summed))]")
        self.assert_changed(functions={"one::opening::open"})

    def test_a_lemma(self):
        self.lay("crates/one/proofs/One.antt", "-- A lemma.\n")
        self.assert_changed(insides={"one"})

    def test_a_comment_says_nothing(self):
        self.replace("// It is early.", "// It is late.")
        self.replace("/// What the lights cost.", "/// What they cost.")
        self.replace("//! A shop that opens.\n\n", "")
        self.assert_changed()

    def test_a_private_contract(self):
        self.replace("ensures { result ≡ 2 }", "ensures { result ≡ 1 + 1 }")
        self.assert_changed(insides={"one"}, functions={"one::opening::lights"})

    def test_a_private_function_more(self):
        self.lay("crates/one/src/opening.rt", SHOP_OPEN + "\nfn shut(shop: Shop) {\n    drop(shop);\n}\n")
        self.assert_changed(insides={"one"}, functions={"one::opening::shut"})

    def test_private_imports(self):
        self.replace("use core::mem::swap;", "use core::mem::{replace, swap};")
        self.replace(".{total}", ".{most, total}")
        self.assert_changed(insides={"one"})

    def test_a_private_constant(self):
        self.replace("x12", "x13")
        self.assert_changed(interfaces={"one"})

    def test_a_public_contract(self):
        self.replace("total shop.old", "total shop.new")
        self.assert_changed(interfaces={"one"}, functions={"one::opening::open"})

    def test_a_type(self):
        self.replace("parts: Vec<u64>,", "parts: Vec<u32>,", file="shop")
        self.assert_changed(interfaces={"one"})

    def test_a_function_that_goes(self):
        self.lay("crates/one/src/opening.rt", SHOP_OPEN[: SHOP_OPEN.index("/// What the lights")])
        self.assert_changed(insides={"one"}, functions={"one::opening::lights"})
        os.remove(f"{self.room}/crates/one/src/opening.rt")
        self.assert_changed(interfaces={"one"}, insides={"one"}, functions={"one::opening::open", "one::opening::lights"})

    def test_a_definition(self):
        self.lay("crates/one/specs/One.antt", "-- One.\n")
        self.assert_changed(interfaces={"one"})

    def test_what_no_check_reads(self):
        for file in ("README.md", "stdout", "data/a/calendar.csv"):
            self.lay(f"crates/one/{file}", "One.\n")
        self.assert_changed()
