import os
import tempfile
import unittest

from ..crates import EACH, listed, standing_under, weight, why_stale


def write(path, text):
    os.makedirs(os.path.dirname(path), exist_ok=True)
    with open(path, "w", encoding="utf-8") as made:
        made.write(text)


class Crates(unittest.TestCase):
    def setUp(self):
        room = tempfile.TemporaryDirectory()
        self.addCleanup(room.cleanup)
        self.top = room.name
        write(self.path("crates.txt"), "# what stands on what\nlow: csv\nside may_wait=2: low\nmrp tests_may=Threads: side low csv\nother: low\n")
        write(self.path("HANDLES"), "Handles allowed: none.\n")
        for name in ("low", "side", "mrp", "other"):
            write(self.path(f"crates/{name}/src/lib.rt"), "fn f() {}\n" * 3)

    def path(self, name):
        return os.path.join(self.top, name)

    def set_times(self, seconds):
        for at, folders, files in os.walk(self.top):
            for name in [*folders, *files]:
                os.utime(os.path.join(at, name), (seconds, seconds))

    def build(self, seconds):
        program = self.path("bin/mrp")
        write(program, "")
        os.chmod(program, 0o755)
        os.utime(program, (seconds, seconds))
        return program

    def test_crates_stand_on_those_of_the_repository_alone(self):
        self.assertEqual(listed(self.top), {"low": [], "side": ["low"], "mrp": ["side", "low"], "other": ["low"]})

    def test_a_crate_comes_after_what_it_stands_on_and_each_once(self):
        self.assertEqual(standing_under(listed(self.top), "mrp"), ["low", "side", "mrp"])

    def test_lines_of_code_and_of_proof_are_counted(self):
        write(self.path("crates/low/proofs/f/Answers.antt"), "a\nb\n")
        write(self.path("crates/low/specs/Lib.antt"), "a\n" * 100)
        self.assertEqual(weight(self.top, "low"), EACH + 4 + 2)

    def test_a_program_that_is_not_there_is_stale(self):
        self.assertEqual(why_stale(self.top, self.path("bin/mrp")), "bin/mrp is not built")

    def test_a_program_that_is_older_than_a_source_is_stale(self):
        self.set_times(1000)
        program = self.build(2000)
        self.assertIsNone(why_stale(self.top, program))
        os.utime(self.path("crates/low/src/lib.rt"), (3000, 3000))
        self.assertEqual(why_stale(self.top, program), "crates/low/src/lib.rt is newer than bin/mrp")

    def test_a_crate_that_the_program_does_not_stand_on_makes_nothing_stale(self):
        self.set_times(1000)
        program = self.build(2000)
        os.utime(self.path("crates/other/src/lib.rt"), (3000, 3000))
        self.assertIsNone(why_stale(self.top, program))


if __name__ == "__main__":
    unittest.main()
