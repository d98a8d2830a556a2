"""Folders and workbooks made up for the tests."""

import contextlib
import csv
import io
import os
import shutil
import tempfile
import unittest
from unittest.mock import patch

from bundle_files import lay_bundle
from import_tables.command import main
from import_tables.tables import TABLES

TOP = os.path.dirname(os.path.dirname(os.path.dirname(os.path.dirname(os.path.realpath(__file__)))))
SHOPS = os.path.join(TOP, "shops")
BICYCLE = os.path.join(SHOPS, "bicycle")


def read_tables(folder):
    """The bytes of the tables in a folder, by their names."""
    tables = {}
    for table in TABLES:
        with open(os.path.join(folder, f"{table}.csv"), "rb") as held:
            tables[table] = held.read()
    return tables


def rows_of(text):
    """The rows of a table, its header the first."""
    return list(csv.reader(io.StringIO(text.decode(), newline="")))


class InAFolder(unittest.TestCase):
    """Tests in a temporary folder."""

    def setUp(self):
        self.top = tempfile.mkdtemp()
        self.addCleanup(shutil.rmtree, self.top)

    def path(self, *names):
        return os.path.join(self.top, *names)

    def lay(self, name, data):
        """Writes a file, and the folders above it."""
        os.makedirs(os.path.dirname(self.path(name)), exist_ok=True)
        with open(self.path(name), "wb") as held:
            held.write(data.encode() if isinstance(data, str) else data)
        return self.path(name)

    def lay_shop(self, shop="bicycle", **changed):
        """A shop's tables in the folder `from`; those that are changed have another text, or with None no file."""
        folder = self.path("from")
        if os.path.isdir(os.path.join(SHOPS, shop)):
            shutil.copytree(os.path.join(SHOPS, shop), folder)
        else:
            lay_bundle(os.path.join(SHOPS, f"{shop}.bundle"), folder)
        for table, text in changed.items():
            os.remove(os.path.join(folder, f"{table}.csv"))
            if text is not None:
                self.lay(f"from/{table}.csv", text)
        return folder

    def run_import(self, *words):
        """Runs tools/import, without the program at its end: its status, standard output and standard error."""
        out, err = io.StringIO(), io.StringIO()
        with patch("import_tables.command.ask", lambda folder: ([], True)):
            with contextlib.redirect_stdout(out), contextlib.redirect_stderr(err):
                status = main([*words])
        return status, out.getvalue(), err.getvalue()

    def imports(self, source, *words):
        """Imports to the folder `to`, which has to do: what was listed, and the tables."""
        status, out, err = self.run_import(source, self.path("to"), *words)
        self.assertEqual((status, err), (0, ""))
        return out, read_tables(self.path("to"))

    def refuses(self, source, *words):
        """Imports to the folder `to`, which has to be refused and leave nothing: what is said."""
        before = sorted(os.listdir(self.top))
        status, out, err = self.run_import(source, self.path("to"), *words)
        self.assertEqual((status, out), (1, ""))
        self.assertTrue(err.endswith("import: nothing is written\n"), err)
        self.assertEqual(sorted(os.listdir(self.top)), before)
        return err
