"""Days for the tests, and how they are exported."""

import contextlib
import glob
import io
import os
import shutil
import tempfile
import unittest

from export_day.command import main

TOP = os.path.dirname(os.path.dirname(os.path.dirname(os.path.dirname(os.path.realpath(__file__)))))
BICYCLE = os.path.join(TOP, "shops", "bicycle")
DAYS = os.path.join(TOP, "crates", "mrp_cases", "data")
DAY = os.path.join(DAYS, "bicycles-as-files.day")


def all_days():
    return sorted(glob.glob(os.path.join(DAYS, "*.day")))


def read(path):
    with open(path, "rb") as held:
        return held.read()


def sections_of(day):
    """The sections of a day in their order, each with its name and its bytes, cut at lines that begin with a bracket."""
    found = []
    for line in day.splitlines(keepends=True):
        if line.startswith(b"["):
            found.append([line.decode().strip()[1:-1], b""])
        else:
            found[-1][1] += line
    return found


class InAFolder(unittest.TestCase):
    """Tests in a temporary folder."""

    def setUp(self):
        self.top = tempfile.mkdtemp()
        self.addCleanup(shutil.rmtree, self.top)

    def path(self, *names):
        return os.path.join(self.top, *names)

    def lay(self, name, data):
        with open(self.path(name), "wb") as held:
            held.write(data.encode() if isinstance(data, str) else data)
        return self.path(name)

    def run_export(self, *words):
        """Runs tools/export: its status, standard output and standard error."""
        out, err = io.StringIO(), io.StringIO()
        with contextlib.redirect_stdout(out), contextlib.redirect_stderr(err):
            status = main([*words])
        return status, out.getvalue(), err.getvalue()

    def exports(self, *words):
        """Exports, which has to do: what is said."""
        status, out, err = self.run_export(*words)
        self.assertEqual((status, err), (0, ""))
        return out

    def refuses(self, *words):
        """Exports, which has to be refused and leave nothing: what is said."""
        before = sorted(os.listdir(self.top))
        status, out, err = self.run_export(*words)
        self.assertEqual((status, out), (1, ""))
        self.assertTrue(err.endswith("export: nothing is written\n"), err)
        self.assertEqual(sorted(os.listdir(self.top)), before)
        return err
