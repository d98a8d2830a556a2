"""The command line of sites/trial, as far as it goes without Snakemake."""

import contextlib
import io
import os
import tempfile
import unittest
from unittest.mock import patch

from ..command import SHORT, TRIALS, change_first, main, name_of, words_given, words_of


class Command(unittest.TestCase):
    def test_without_snakemake_that_is_said(self):
        out = io.StringIO()
        with patch("trials.command.shutil.which", lambda name: None), contextlib.redirect_stdout(out):
            self.assertEqual(main(["--short"]), 0)
        said = "trial: there is no program snakemake, so no night was tried: apt-get install snakemake\n0 passed, 0 failed\n"
        self.assertEqual(out.getvalue(), said)

    def test_words(self):
        self.assertEqual(words_given([]).trials, list(TRIALS))
        self.assertEqual(words_given(["--short"]).trials, list(SHORT))
        self.assertEqual(words_given(["stock", "nothing"]).trials, ["nothing", "stock"])
        given = words_given(["--jobs", "1", "--profile", "slurm", "--batch", "5"])
        self.assertEqual(words_of(given), ["--jobs", "1", "--batch", "5", "--profile", "slurm"])
        self.assertEqual(name_of(given), "20 of 500 items, 1 job, batches of 5, slurm")
        err = io.StringIO()
        with self.assertRaises(SystemExit) as ended, contextlib.redirect_stderr(err):
            words_given(["stocks"])
        self.assertEqual(ended.exception.code, 2)
        self.assertIn("stocks is no trial; expected nothing, again", err.getvalue())

    def test_a_changed_table(self):
        with tempfile.TemporaryDirectory() as top:
            path = os.path.join(top, "stock.csv")
            with open(path, "w", encoding="utf-8") as held:
                held.write("item,onhand\nM000,9\nM001,4\n")
            change_first(path)
            with open(path, encoding="utf-8") as held:
                self.assertEqual(held.read(), "item,onhand\nM000,10\nM001,4\n")
