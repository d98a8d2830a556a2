"""Made-up crates, and what a prover might say of them."""

import os
import tempfile
import unittest
from dataclasses import dataclass, field

SHOP = """//! A shop.

ghost use Rattle.small.specs.Shop.{total};

/// The parts of a shop.
pub struct Shop {
    parts: Vec<u64>,
}

impl Shop {
    /// How many parts there are.
    #[tactic(auto, using(crate::proofs::Shop::counted))]
    pub fn count(&self) -> usize
        ensures { result ≡ length self.now.parts.items }
    {
        self.parts.len()
    }
}

impl Clone for Shop {
    fn clone(&self) -> Shop {
        Shop { parts: self.parts.clone() }
    }
}

pub fn add(one: u64, other: u64) -> u64
    ensures { result ≡ one + other }
{
    let sum = one + other;
    sum
}
"""

STEPS = """//! The steps of a shop.

impl Shop {
    /// Takes a part off the shelf.
    pub fn take(&mut self) -> Option<u64> {
        self.parts.pop()
    }
}

#[cycle(even)]
fn odd(number: u64) -> bool {
    number > 0 && even(number - 1)
}
"""

MAIN = """//! A program.

fn twice(number: u64) -> u64 {
    number * 2
}

fn main() {
    print(twice(2));
}
"""


@dataclass(eq=False)
class Crate:
    """What the runner asks of a crate of the toolchain."""

    name: str
    folder: str
    is_program: bool = False
    deps: list = field(default_factory=list)
    of_kit: list = field(default_factory=list)

    @property
    def rlib(self):
        return f"{self.folder}/out/rlib/{self.name}.rlib"

    def below(self):
        return [*dict.fromkeys(it for dep in self.deps for it in [*dep.below(), dep])]

    def is_built(self):
        return False

    def words(self, flags, keeps):
        return ["--crate-name", self.name, *flags]


class InAFolder(unittest.TestCase):
    """Tests in a folder of their own, in which they lay crates."""

    def setUp(self):
        room = tempfile.TemporaryDirectory(prefix="edits-tests-")
        self.addCleanup(room.cleanup)
        self.room = room.name

    def lay(self, path, text):
        path = f"{self.room}/{path}"
        os.makedirs(os.path.dirname(path), exist_ok=True)
        with open(path, "w", encoding="utf-8") as out:
            out.write(text)

    def read(self, path):
        with open(f"{self.room}/{path}", encoding="utf-8") as held:
            return held.read()

    def small(self):
        """A crate `small`: a type in the file of the module `shop`, whose methods stand in two files."""
        self.lay("small/src/lib.rt", "//! Small.\n\nmod shop;\n")
        self.lay("small/src/shop.rt", SHOP)
        self.lay("small/src/shop/steps.rt", STEPS)
        return Crate("small", f"{self.room}/small")

    def program(self):
        """A program `tool`."""
        self.lay("tool/src/main.rt", MAIN)
        return Crate("tool", f"{self.room}/tool", is_program=True)

    def lay_edit(self, name, of, old, new, file="src/shop.rt", more=""):
        """An edit of the crate `small`."""
        self.lay(f"small/edits/{name}.edit", f"of: {of}\n{more}file: {file}\nold: {old}\nnew: {new}\n")
