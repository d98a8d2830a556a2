"""Tests of desk_runner.manuals: what it reads of documents that show a desk, and that it finds what is wrong."""

import os
import tempfile
import unittest

from desk_runner import manuals

COMMANDS = "    mkdir ~/d && cp shops/bicycle/*.csv ~/d && rm ~/d/script.csv\n    bin/mrp desk --dir ~/d\n"
HEAD = "| You type | It answers |\n|---|---|\n"
ROWS = "| `1,run,,,,` | `full` |\n|`x`|`full`: no call|\n"
SECTION = f"Desks\n\nSome words.\n\n{COMMANDS}\n{HEAD}{ROWS}\nCtrl-D ends it. `bin/mrp page < a` draws it, `cut: script 8`.\n"
# Answers each line with the same word.
PROGRAM = "#!/bin/sh\n[ \"$1\" = desk ] || exit {status}\nwhile read -r line; do echo {answer}; done\n"


class Documents(unittest.TestCase):
    def test_what_a_section_shows(self):
        shown = manuals.shown_in(SECTION)
        self.assertEqual(shown.commands, [line.strip() for line in COMMANDS.splitlines()])
        self.assertEqual((shown.folder, shown.afterwards), ("d", ["bin/mrp page < a"]))
        self.assertEqual(shown.rows, [("1,run,,,,", "full"), ("x", "full")])

    def test_sections_that_are_not_read(self):
        for section in (
            "",
            f"Desks\n\n{HEAD}{ROWS}",
            f"Desks\n\n{COMMANDS}\n{HEAD}",
            f"{SECTION}\n{COMMANDS}\n{HEAD}{ROWS}",
            SECTION.replace("--dir ~/d\n", "--dir d\n"),
            SECTION.replace("| `full` |", "| full |"),
            SECTION.replace("`full`: no call|", "`full`|no call|"),
            SECTION.replace("`full`: no call|", "`full` or `x`|"),
        ):
            with self.subTest(section=section):
                self.assertRaises(manuals.Unread, manuals.shown_in, section)
                self.assertIsNotNone(manuals.Manual("a document", section).fault("none"))

    def test_a_document(self):
        found = manuals.manuals_of("A.md", f"# A\n\n## One\n\nWords.\n\n## {SECTION}\n## Two\n")
        self.assertEqual([it.name for it in found], ["A.md, Desks"])
        self.assertEqual([it.section for it in manuals.manuals_of("A.md", "# A\n\n## One\n")], [""])

    def test_the_documents_of_this_repository(self):
        for it in manuals.manuals():
            with self.subTest(document=it.name):
                shown = manuals.shown_in(it.section)
                self.assertIn("cp shops/bicycle/*.csv ~/", shown.commands[0])
                self.assertGreater(len(shown.rows), 3)


class Tries(unittest.TestCase):
    def fault(self, answer="full", status=0, section=SECTION):
        """What is found of a program that answers so."""
        with tempfile.TemporaryDirectory() as room:
            path = os.path.join(room, "program")
            with open(path, "w", encoding="ascii") as held:
                held.write(PROGRAM.format(answer=answer, status=status))
            os.chmod(path, 0o755)
            return manuals.Manual("a document", section.replace("`bin/mrp page < a`", "`bin/mrp page`")).fault(path)

    def test_a_desk_that_is_as_it_is_shown(self):
        self.assertIsNone(self.fault())

    def test_other_answers(self):
        self.assertIn("is answered `Full`, and not `full`", self.fault("Full"))
        self.assertIn("4 answers to 2 lines", self.fault("full; echo full"))
        self.assertIn("1 answers to 2 lines", self.fault("full; exit"))

    def test_other_ends(self):
        self.assertIn("ends with status 3", self.fault("full; done; exit 3; while false; do echo"))
        self.assertIn("`bin/mrp page` ends with status 1", self.fault(status=1))
        self.assertIn("No such file", self.fault(section=SECTION.replace("shops/bicycle", "shops/tricycle")))

    def test_commands_that_are_typed_again(self):
        journalled = "full; echo 1 >> ~/d/script.csv"
        self.assertIsNone(self.fault(journalled))
        lost = self.fault(journalled, section=SECTION.replace("mkdir ~/d", "mkdir -p ~/d"))
        self.assertEqual(lost, "its commands, typed again, change script.csv")


if __name__ == "__main__":
    unittest.main()
