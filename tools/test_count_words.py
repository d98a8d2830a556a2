"""The tests of tools/count_words."""

import importlib.machinery
import importlib.util
import os
import tempfile
import unittest
from unittest.mock import patch

LOADER = importlib.machinery.SourceFileLoader("count_words", os.path.join(os.path.dirname(__file__), "count_words"))
count_words = importlib.util.module_from_spec(importlib.util.spec_from_loader("count_words", LOADER))
LOADER.exec_module(count_words)
PAGE = "# A day's time, and more\n## [Map](MAP.md)\n## Map\n```\n# no heading [no](link.md)\n```\n"


class Links(unittest.TestCase):
    def test_headings(self):
        self.assertEqual(count_words.anchors_of(PAGE), {"a-days-time-and-more", "map", "map-1"})

    def test_links(self):
        text = f"{PAGE}`[no](link)` [`yes`](../a.md#b) ![c](c.png) [site](https://example.org)"
        self.assertEqual(count_words.links_of(text), ["MAP.md", "../a.md#b", "c.png"])

    def test_where_they_lead(self):
        with tempfile.TemporaryDirectory() as top, patch.object(count_words, "TOP", top):
            with open(os.path.join(top, "A.md"), "w", encoding="utf-8") as page:
                page.write(PAGE)
            ends = [count_words.leads_nowhere("A.md", it) for it in ("A.md", "#map-1", "./A.md#map", "B.md", "#b", "A.md#b")]
        self.assertEqual(ends, [False, False, False, True, True, True])
