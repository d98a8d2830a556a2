"""Tests of tools/hostile_shapes: its shapes are made as large as they say, and its bounds are those of docs/SPEED.md."""

import importlib.machinery
import importlib.util
import os
import tempfile
import unittest

TOOLS = os.path.dirname(os.path.dirname(os.path.realpath(__file__)))
TOP = os.path.dirname(TOOLS)


def tool():
    loader = importlib.machinery.SourceFileLoader("hostile_shapes", os.path.join(TOOLS, "hostile_shapes"))
    made = importlib.util.module_from_spec(importlib.util.spec_from_loader("hostile_shapes", loader))
    loader.exec_module(made)
    return made


TOOL = tool()


def rows_of_the_document():
    """The rows of the table of hostile shapes, each with its cells."""
    with open(os.path.join(TOP, "docs", "SPEED.md"), encoding="utf-8") as held:
        part = held.read().partition("## Hostile shapes\n")[2].partition("\n## ")[0]
    return [line.strip("|").split("|") for line in part.splitlines() if line.startswith("|")][2:]


class HostileShapes(unittest.TestCase):
    def test_the_document_has_the_bounds_of_the_tool(self):
        shapes = {it.name: it for it in TOOL.shapes()}
        rows = rows_of_the_document()
        self.assertEqual([row[0] for row in rows], list(shapes))
        for name, command, size, _, _, seconds, most in rows:
            with self.subTest(shape=name):
                bound = TOOL.most_memory(shapes[name], float(size) * TOOL.MB) / TOOL.MB
                self.assertEqual((command, int(seconds)), (shapes[name].command, shapes[name].seconds))
                self.assertAlmostEqual(int(most), bound, delta=1)

    def test_a_shape_is_filled_to_its_size(self):
        with tempfile.TemporaryDirectory() as room:
            path = os.path.join(room, "shape")
            for texts, size in (
                (["ab", TOOL.Filled("x", 10)], 12),
                (["ab", TOOL.Filled("xyz", 10)], 11),
                (["ab", TOOL.Filled("xyz", 10, True), "c"], 9),
                (["ab", TOOL.Filled("\0", 3_000_000, True)], 3_000_000),
                ([TOOL.Filled("xy", 3_000_001)], 3_000_000),
            ):
                TOOL.make(texts, path)
                self.assertEqual(os.path.getsize(path), size)

    def test_a_shape_is_a_folder_of_tables(self):
        with tempfile.TemporaryDirectory() as room:
            size = TOOL.make_folder(["[stock]\nitem,onhand\n[items]\nitem\n", TOOL.Filled(",", 10)], room)
            self.assertEqual(size, 12 + 15)
            with open(os.path.join(room, "items.csv"), encoding="utf-8") as held:
                self.assertEqual(held.read(), "item\n" + 10 * ",")

    def test_memory_is_what_a_run_that_does_nothing_does_not_hold(self):
        page = next(it for it in TOOL.shapes() if it.name == "page of commas")
        for held, is_wrong in ((85, False), (177, False), (178, True)):
            ran = TOOL.Ran(1, "wrong: shape", False, "", 0.0, held * TOOL.MB, 77 * TOOL.MB)
            self.assertEqual(ran.beyond(), (held - 77) * TOOL.MB)
            self.assertEqual(bool(list(TOOL.faults(page, 200 * TOOL.MB, ran))), is_wrong)
        self.assertEqual(TOOL.Ran(0, "", False, "", 0.0, 1, 2).beyond(), 0)

    def test_a_line_is_found_across_pieces(self):
        for text, is_there in (("a\nline\nb", True), ("line\nb", True), ("a\nlines\nb", False), ("a\nline", False)):
            looking = TOOL.Looking("line")
            for letter in text.encode():
                looking.see(bytes([letter]))
            self.assertEqual(looking.found, is_there, text)


if __name__ == "__main__":
    unittest.main()
