"""The command line, and the program at its end."""

import contextlib
import io
import os
import unittest
from unittest.mock import patch

from ..asked import ask, programs
from ..command import main
from .made_up import BICYCLE, InAFolder, read_tables

INSPECTS = """#!/bin/sh
[ "$1" = inspect ] || exit 2
[ "$2" = --help ] && exit 0
echo "items.csv:5: lot: 'LFL' is not a lot rule; expected lfl, fixed or period (refused: 10 word items 4)"
echo "1 fault (warnings are told when there is none)"
exit 1
"""
PLANS = """#!/bin/sh
[ "$1" = plan ] || exit 2
echo "a long day"
echo "refused: 10 word items 4" >&2
exit 1
"""
WELL = "#!/bin/sh\n[ $1 = plan ]\n"


class Command(InAFolder):
    def refused(self, *words):
        err = io.StringIO()
        with contextlib.redirect_stderr(err), self.assertRaises(SystemExit) as ended:
            main([*words])
        self.assertEqual(ended.exception.code, 2)
        return err.getvalue()

    def test_words_that_are_refused(self):
        for words, said in (
            ((), "FROM, TO"),
            (("a",), "TO"),
            (("a", "b", "c"), "unrecognized arguments: c"),
            (("a", "b", "--nam", "c"), "unrecognized arguments: --nam c"),
            (("a", ""), "TO is empty"),
            (("a", "b", "--dates", "ymd"), "--dates: invalid choice: 'ymd'"),
            (("a", "b", "--decimal", "dot"), "--decimal: invalid choice: 'dot'"),
            (("a", "b", "--empty", "stock,stuff"), "--empty: stuff is none of calendar, items"),
        ):
            with self.subTest(words):
                self.assertIn(said, self.refused(*words))

    def test_options_for_what_could_be_both(self):
        master = 'item,row,date,quantity\nBIKE,firm,03/02/2025,"1,000"\n'
        self.assertEqual(self.refuses(self.lay_shop(master=master)).count("could be"), 2)
        _, tables = self.imports(self.path("from"), "--dates", "dmy", "--decimal", "point")
        self.assertEqual(tables["master"], b"item,row,date,quantity\nBIKE,firm,2025-02-03,1000\n")
        _, tables = self.imports(self.path("from"), "--dates", "mdy", "--decimal", "comma", "--replace")
        self.assertEqual(tables["master"], b"item,row,date,quantity\nBIKE,firm,2025-03-02,1\n")

    def program(self, text):
        path = self.lay("bin/mrp", text)
        os.chmod(path, 0o755)
        return path

    def import_with(self, program):
        """Imports a shop where this is the program: the status, and the lines after the last of the import."""
        out = io.StringIO()
        with patch("import_tables.asked.programs", lambda: [program] if program else []), contextlib.redirect_stdout(out):
            status = main([BICYCLE, self.path("to")])
        self.assertEqual(read_tables(self.path("to")), read_tables(BICYCLE))
        return status, out.getvalue().partition("the nine tables are written\n")[2]

    def test_a_program_that_inspects(self):
        program, folder = self.program(INSPECTS), self.path("to")
        status, said = self.import_with(program)
        self.assertEqual(status, 3)
        self.assertTrue(said.startswith(f"{program} inspect --dir {folder}:\nitems.csv:5: lot: 'LFL'"), said)

    def test_a_program_that_does_not(self):
        program, folder = self.program(PLANS), self.path("to")
        expected = f"this mrp has no inspect; its first fault, by {program} plan --dir {folder}:\nrefused: 10 word items 4\n"
        self.assertEqual(self.import_with(program), (3, expected))

    def test_a_program_that_finds_nothing(self):
        program, folder = self.program(WELL), self.path("to")
        expected = f"{program} plan --dir {folder} finds no fault (this mrp has no inspect)\n"
        self.assertEqual(self.import_with(program), (0, expected))

    def test_a_program_that_says_nothing(self):
        status, said = self.import_with(self.program("#!/bin/sh\nexit 3\n"))
        self.assertEqual((status, said.splitlines()[1]), (3, "it ended with status 3"))

    def test_no_program(self):
        status, said = self.import_with(None)
        self.assertEqual((status, said), (0, "no mrp was found, in the path or as bin/mrp: nothing has looked at the tables\n"))

    def test_the_first_program_that_inspects(self):
        plans, inspects = self.program(PLANS), self.lay("other/mrp", INSPECTS)
        os.chmod(inspects, 0o755)
        self.assertTrue(ask("folder", [plans, inspects])[0][0].startswith(inspects))

    def test_programs(self):
        program = self.program(WELL)
        with patch.dict(os.environ, {"PATH": os.path.dirname(program)}):
            self.assertEqual(programs()[0], program)


if __name__ == "__main__":
    unittest.main()
