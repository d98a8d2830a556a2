"""The tests of tools/dear, on files as the toolchain keeps them."""

import contextlib
import importlib.machinery
import importlib.util
import io
import os
import tempfile
import unittest

LOADER = importlib.machinery.SourceFileLoader("dear", os.path.join(os.path.dirname(__file__), "dear"))
dear = importlib.util.module_from_spec(importlib.util.spec_from_loader("dear", LOADER))
LOADER.exec_module(dear)


class Kept(unittest.TestCase):
    def setUp(self):
        room = tempfile.TemporaryDirectory()
        self.addCleanup(room.cleanup)
        self.crate = room.name

    def keep(self, written, name, folder="", head="--@ antt-checked 81\n"):
        at = os.path.join(self.crate, "out", "incremental", "antt-checked-81", folder)
        os.makedirs(at, exist_ok=True)
        path = os.path.join(at, f"{name[-40:]}.oantt")
        with open(path, "w", encoding="utf-8") as made:
            made.write(f"{head}--@ module {name}\n--@ import base.Fml - -\nbody")
        os.utime(path, (written, written))

    def keep_proof(self, begun):
        """A function with a closure, another whose contract is read first, a file of lemmas, and a link."""
        parts = ["specs.contracts.b.T.g", "proofs.f.Lts", "proofs.f.Statement", "proofs.fn.f.all+FnMut.call_mut.Statement"]
        parts += ["proofs.fn.f.all+FnMut.call_mut.Lts", "proofs.b.T.g.Statement", "proofs.Lemmas", "proofs.f.TheLink", "proofs.b.T.g.Lts.View"]
        for at, part in enumerate(parts):
            self.keep(begun + at * (at + 1) // 2, f"Rattle-low-{part}")

    def said(self, *words):
        out = io.StringIO()
        with contextlib.redirect_stdout(out), contextlib.redirect_stderr(out):
            try:
                status = dear.main([*words])
            except SystemExit as ended:
                status = ended.code
        return out.getvalue().splitlines(), status

    def test_a_function_takes_what_its_modules_and_closures_take(self):
        self.keep_proof(1000)
        lines, status = self.said(f"{self.crate}/")
        told = ["  13.0 s    8.0 s  b::T::g", "  10.0 s    5.0 s  f", "   7.0 s    0.0 s  (links)", "   6.0 s    0.0 s  Lemmas"]
        self.assertEqual((lines, status), ([*told, "    36 s     13 s  together"], 0))

    def test_so_many_are_told(self):
        self.keep_proof(1000)
        self.assertEqual([it[19:] for it in self.said(f"{self.crate}/", "--most", "2")[0]], ["b::T::g", "f", "together"])

    def test_the_time_between_two_runs_does_not_count(self):
        self.keep(1000, "Rattle-low-proofs.f.Statement")
        self.keep(1000 + dear.GAP, "Rattle-low-proofs.g.Statement")
        self.keep(1002 + dear.GAP, "Rattle-low-proofs.g.Met")
        self.assertEqual({name: it.seconds for name, it in dear.costs_of(dear.modules_kept(self.crate)).items()}, {"f": 0, "g": 2})

    def test_folders_take_no_time(self):
        for at, part in enumerate(["f.Statement", "b", "b.g", "b.g.Lts", "b.g.Lts.View", "b.g.Statement"]):
            self.keep(1000 + at, f"Rattle-low-proofs.{part}")
        self.assertEqual({name: it.seconds for name, it in dear.costs_of(dear.modules_kept(self.crate)).items()}, {"f": 0, "b": 0, "b.g": 3})

    def test_modules_of_long_names_are_read_and_other_files_are_not(self):
        self.keep(1000, "Rattle-low-proofs.f.Met", folder="long")
        self.keep(1001, "Rattle-low-proofs.g.Met", folder="records")
        self.keep(1002, "Rattle-low-proofs.h.Met", head="no module\n")
        self.assertEqual(dear.modules_kept(self.crate), [(1000, "Rattle-low-proofs.f.Met")])

    def test_a_crate_of_which_nothing_is_kept(self):
        self.assertEqual(self.said("no_crate"), (["dear: nothing is kept of a proof of no_crate"], 1))

    def test_help(self):
        lines, status = self.said("--help")
        self.assertEqual((lines[0], status), ("Tells which functions of a crate took longest in its last proof.", 0))


if __name__ == "__main__":
    unittest.main()
