"""Edits that do not compile, with a made-up compiler: one that does not know a word."""

from subprocess import CompletedProcess
from unittest.mock import patch

from .. import compiling
from ..compiling import do_not_compile
from ..edit_files import edits_of
from .made_up import InAFolder

UNKNOWN = "no_such"


def compiler(places):
    """Says of each line with the unknown word that there is none, at its place in the file if places are told."""

    def check(rounds, functions=(), kept=None):
        ((crate, tried),) = rounds.items()
        lines = [(file, at) for file, text in tried.texts.items() for at, line in enumerate(text.split("\n"), 1) if UNKNOWN in line]
        said = [f"{crate.name}/{file}:{at}:1: error[unknown]: {UNKNOWN}" if places else f"error: {UNKNOWN}" for file, at in lines]
        return CompletedProcess([], 2 if said else 0, "\n".join([*said, "only=0 holes=0"]))

    return check


class Compiling(InAFolder):
    def told(self, check):
        small = self.small()
        self.lay_edit("a_difference", "shop::add", "one + other;", "one - other;")
        self.lay_edit("a_lost_name", "shop::add", "one + other;", f"one + {UNKNOWN};")
        self.lay_edit("in_place", "shop::ShopClone::clone", "self.parts.clone()", f"self.parts.{UNKNOWN}()")
        self.lay_edit("no_parts", "shop::Shop::count", "self.parts.len()", "0")
        with patch.object(compiling, "check", check):
            return {edit.name: why for edit, why in do_not_compile(small, edits_of(small, [])[0])}

    def test_an_error_is_told_of_the_edit_at_its_place(self):
        told = self.told(compiler(places=True))
        self.assertEqual({*told}, {"a_lost_name.edit", "in_place.edit"})
        self.assertIn("src/shop.rt:", told["a_lost_name.edit"])

    def test_an_error_without_a_place_is_found_by_halves(self):
        self.assertEqual({*self.told(compiler(places=False))}, {"a_lost_name.edit", "in_place.edit"})

    def test_edits_that_compile(self):
        self.assertEqual(self.told(lambda *given: CompletedProcess([], 0, "only=0 holes=0")), {})
