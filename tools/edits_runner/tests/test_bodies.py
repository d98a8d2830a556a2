import unittest

from ..bodies import (
    bodies,
    body_at,
    emptied,
    found_below,
    module_of,
    modules_of_types,
    owner_of,
    path_of,
    without_main,
)
from .made_up import MAIN, SHOP, STEPS


def body_named(text, name):
    return next(it for it in bodies(text.split("\n")) if it.name == name)


class Layout(unittest.TestCase):
    def test_functions_are_found_with_what_stands_above_them(self):
        found = [*bodies(SHOP.split("\n"))]
        self.assertEqual([it.name for it in found], ["count", "clone", "add"])
        lines = SHOP.split("\n")
        count = found[0]
        self.assertEqual(lines[count.first].strip(), "/// How many parts there are.")
        self.assertEqual([it.strip() for it in lines[count.begin : count.end]], ["self.parts.len()"])
        self.assertEqual(count.owner, "impl Shop {")

    def test_a_contract_is_no_body(self):
        lines = SHOP.split("\n")
        contract = next(at for at, line in enumerate(lines) if "one + other }" in line)
        self.assertIsNone(body_at(lines, contract))
        self.assertEqual(body_at(lines, contract + 2).name, "add")

    def test_what_is_bound_to_its_name(self):
        self.assertTrue(body_named(SHOP, "clone").is_bound_to_its_name())
        self.assertTrue(body_named(STEPS, "odd").is_bound_to_its_name())
        self.assertTrue(body_named(MAIN, "main").is_bound_to_its_name())
        self.assertFalse(body_named(SHOP, "count").is_bound_to_its_name())

    def test_a_declaration_has_no_body(self):
        self.assertEqual([*bodies(["trait Lot {", "    fn size(&self) -> u64;", "}"])], [])


class Paths(unittest.TestCase):
    def test_modules_of_files(self):
        self.assertEqual(module_of("src/lib.rt"), [])
        self.assertEqual(module_of("src/main.rt"), [])
        self.assertEqual(module_of("src/day.rt"), ["day"])
        self.assertEqual(module_of("src/day/mod.rt"), ["day"])
        self.assertEqual(module_of("src/core/steps.rt"), ["core", "steps"])

    def test_owners(self):
        self.assertEqual(owner_of(" Shop"), "Shop")
        self.assertEqual(owner_of("<T: Lot> Plan<T>"), "Plan")
        self.assertEqual(owner_of(" Clone for Shop"), "ShopClone")
        self.assertEqual(owner_of(" fmt::Write for Page<'_>"), "PageWrite")

    def test_a_method_is_named_below_the_module_of_its_type(self):
        types = modules_of_types({"src/shop.rt": SHOP, "src/shop/steps.rt": STEPS})
        self.assertEqual(types, {"Shop": [["shop"]]})
        self.assertEqual(path_of("src/shop.rt", body_named(SHOP, "count"), types), ["shop", "Shop", "count"])
        self.assertEqual(path_of("src/shop/steps.rt", body_named(STEPS, "take"), types), ["shop", "Shop", "take"])
        self.assertEqual(path_of("src/shop/steps.rt", body_named(STEPS, "odd"), types), ["shop", "steps", "odd"])

    def test_a_path_that_is_not_clear_is_not_told(self):
        two = {"Shop": [["shop"], ["market"]]}
        self.assertEqual(path_of("src/shop.rt", body_named(SHOP, "count"), two), ["shop", "Shop", "count"])
        self.assertIsNone(path_of("src/shop/steps.rt", body_named(STEPS, "take"), two))
        self.assertIsNone(path_of("src/shop/steps.rt", body_named(STEPS, "take"), {}))
        of_one = "impl Weeks<Qty> {\n    fn zero() -> u64 {\n        0\n    }\n}\n"
        self.assertIsNone(path_of("src/weeks.rt", body_named(of_one, "zero"), {"Weeks": [["weeks"]]}))

    def test_what_a_function_calls_in_the_end(self):
        calls = {"a": {"b"}, "b": {"c", "a"}}
        self.assertEqual(found_below("a", calls), {"a", "b", "c"})
        self.assertEqual(found_below("c", calls), set())


class WithoutBodies(unittest.TestCase):
    def test_bodies_are_left_out(self):
        text, paths = emptied("src/shop.rt", SHOP, lambda body: body.name == "add", {"Shop": [["shop"]]})
        self.assertEqual(paths, [["shop", "Shop", "count"]])
        self.assertEqual(text, SHOP.replace("self.parts.len()", "loop {}"))

    def test_a_body_whose_path_is_not_clear_is_kept(self):
        text, paths = emptied("src/shop/steps.rt", STEPS, lambda body: False, {})
        self.assertEqual((text, paths), (STEPS, []))

    def test_a_program_without_main(self):
        self.assertNotIn("main", without_main(MAIN))
        self.assertIn("fn twice", without_main(MAIN))
