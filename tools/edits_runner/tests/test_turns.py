import os
import subprocess
from unittest.mock import patch

from .. import command
from ..edit_files import edits_of
from ..together import Waiting, edits_now
from ..toolchain import NAMING
from ..changes import Changes, NoTurn
from ..turns import LANDED, TURNS, Turn, turn_at, waits
from .made_up import Crate, InAFolder


class Turns(InAFolder):
    def lay_own(self, count, more=""):
        """A crate `own` with so many public functions and an edit of each, over a crate `low`."""
        self.lay("own/src/lib.rt", "".join(f"pub fn add_{at}(one: u64) {{\n    one + {at};\n}}\n\n" for at in range(count)))
        for at in range(count):
            self.lay(f"own/edits/a_sum_of_{at}.edit", f"{more}of: add_{at}\nfile: src/lib.rt\nold: one + {at};\nnew: one;\n")
        lowest = Crate("lowest", f"{self.room}/lowest")
        low = Crate("low", f"{self.room}/low", deps=[lowest])
        return Crate("own", f"{self.room}/own", deps=[low])

    def waiting(self, crate, **changes):
        """The names of the edits that wait, turn by turn, where this has changed."""
        good, bad = edits_of(crate, [])
        self.assertEqual(bad, [])
        turns = [Turn(number, "", Changes(**changes)) for number in range(TURNS)]
        return [[edit.name for edit in good if waits(crate, edit, turn)] for turn in turns]

    def test_each_is_tried_in_one_turn(self):
        waiting = self.waiting(self.lay_own(30))
        counts = [sum(f"a_sum_of_{at}.edit" in it for it in waiting) for at in range(30)]
        self.assertEqual(counts, [TURNS - 1] * 30)
        self.assertTrue(all(0 < len(it) < 30 for it in waiting))

    def test_edits_of_a_function_have_one_turn(self):
        own = self.lay_own(9)
        for at in range(9):
            self.lay(f"own/edits/b_sum_of_{at}.edit", f"of: add_{at}\nfile: src/lib.rt\nold: one + {at};\nnew: {at};\n")
        for names in self.waiting(own):
            self.assertEqual([f"b{it[1:]}" for it in names if it[0] == "a"], [it for it in names if it[0] == "b"])

    def test_none_waits_where_the_interface_of_its_crate_or_of_one_below_has_changed(self):
        own = self.lay_own(9)
        for name in ("own", "low", "lowest"):
            self.assertEqual(self.waiting(own, interfaces={name}), [[]] * TURNS, name)
        self.assertEqual(self.waiting(own, interfaces={"another"}), self.waiting(own))

    def test_the_inside_of_a_crate_below_is_not_seen(self):
        own = self.lay_own(9)
        self.assertEqual(self.waiting(own, insides={"own"}), [[]] * TURNS)
        self.assertEqual(self.waiting(own, insides={"low"}), self.waiting(own))

    def test_an_edit_of_a_function_that_has_changed_does_not_wait(self):
        waiting = self.waiting(self.lay_own(9), functions={"own::add_3", "low::add_4"})
        counts = [sum(f"a_sum_of_{at}.edit" in it for it in waiting) for at in (3, 4)]
        self.assertEqual(counts, [0, TURNS - 1])

    def test_none_waits_where_there_is_no_turn(self):
        own = self.lay_own(9)
        self.assertFalse(any(waits(own, edit, None) for edit in edits_of(own, [])[0]))

    def test_one_that_has_changed_does_not_wait(self):
        waiting = self.waiting(self.lay_own(9), edits={"own/a_sum_of_3.edit", "low/a_sum_of_4.edit"})
        counts = [sum(f"a_sum_of_{at}.edit" in it for it in waiting) for at in (3, 4)]
        self.assertEqual(counts, [0, TURNS - 1])

    def test_controls_and_what_is_always_tried_do_not_wait(self):
        for more in ("harmless: the same\n", "always: each row is told twice\n"):
            self.assertEqual(self.waiting(self.lay_own(9, more)), [[]] * TURNS)

    def test_what_moved_is_bad_in_every_turn(self):
        own = self.lay_own(9)
        self.lay("own/src/lib.rt", "pub fn add_0(one: u64) {\n    one;\n}\n")
        for number in range(TURNS):
            now, left, bad = edits_now(own, [], Turn(number))
            self.assertEqual((now, left, len(bad)), ([], 0, 9))

    def test_crates_are_put_together_by_what_is_tried(self):
        own = self.lay_own(9)
        waiting = Waiting([], Turn(0))
        waiting.add(own)
        now, left, _ = edits_now(own, [], Turn(0))
        self.assertEqual((waiting.counts[own], left), (len(now), 9 - len(now)))


KIT = "rattle-kit-0"


class ByGit(InAFolder):
    """A repository with two crates, of which the first commit has landed."""

    def git(self, *words, folder=None):
        who = ["-c", "user.name=a", "-c", "user.email=a@b.c", "-c", "commit.gpgsign=false"]
        ran = subprocess.run(["git", "-C", folder or self.room, *who, *words], check=True, capture_output=True, text=True)
        return ran.stdout.strip()

    def commit(self):
        self.git("add", "-A")
        self.git("commit", "-q", "--no-verify", "-m", "so")
        return self.git("rev-parse", "HEAD")

    def setUp(self):
        super().setUp()
        self.git("init", "-q")
        self.lay("crates.txt", "one:\ntwo: one\n")
        self.lay("crates/one/src/lib.rt", "//! One.\n\n//! It has lines enough.\n\n//! It is moved.\n")
        self.lay("crates/two/specs/Two.antt", "-- Two.\n")
        self.lay(NAMING, f'const VERSION: &str = "0.1.0 (proved with {KIT})";\n')
        self.first = self.commit()
        self.lay(LANDED, f"{self.first}\n")
        self.second = self.commit()

    def changed(self):
        return turn_at(self.room, KIT).changes.interfaces

    def assert_no_turn(self, why, top=None, version=KIT):
        with self.assertRaisesRegex(NoTurn, why):
            turn_at(top or self.room, version)

    def test_nothing_has_changed(self):
        turn = turn_at(self.room, KIT)
        self.assertEqual((turn.landed, turn.changes), (self.first, Changes()))
        self.assertIn(turn.number, range(TURNS))

    def test_crates_change_by_commits_and_by_what_none_has(self):
        self.lay("crates/one/src/lib.rt", "pub mod one;\n")
        self.assertEqual(self.changed(), {"one"})
        self.commit()
        self.assertEqual(self.changed(), {"one"})
        self.lay("crates/three/specs/Three.antt", "-- Three.\n")
        self.assertEqual(self.changed(), {"one", "three"})
        os.remove(f"{self.room}/crates/two/specs/Two.antt")
        self.assertEqual(self.changed(), {"one", "two", "three"})

    def test_a_file_that_moves_changes_both_crates(self):
        self.lay("crates/two/src/lib.rt", "pub mod one;\n")
        self.lay(LANDED, f"{self.commit()}\n")
        os.rename(f"{self.room}/crates/two/src/lib.rt", f"{self.room}/crates/one/lib.rt")
        self.assertEqual(self.changed(), {"one", "two"})
        self.commit()
        self.assertEqual(self.changed(), {"one", "two"})

    def test_a_name_that_git_would_quote(self):
        self.lay("crates/one/src/ä b.rt", "pub mod one;\n")
        self.assertEqual(self.changed(), {"one"})
        self.commit()
        self.assertEqual(self.changed(), {"one"})

    def test_a_crate_that_stands_on_another_has_changed(self):
        self.lay("crates.txt", "one: itoa\ntwo: one\nthree may_wait=3: two\n")
        self.assertEqual(self.changed(), {"one", "three"})

    def test_a_changed_edit_is_no_change_of_its_crate(self):
        self.lay("crates/one/edits/a.edit", "of: add\n")
        self.lay("crates/one/must-fail/more/b.edit", "of: add\n")
        turn = turn_at(self.room, KIT)
        self.assertEqual(turn.changes, Changes(edits={"one/a.edit", "one/b.edit"}))

    def test_another_toolchain(self):
        self.assert_no_turn("was proved with rattle-kit-0", version="rattle-kit-1")

    def test_no_landing_is_named(self):
        for text in ("", "HEAD\n", "main\n"):
            self.lay(LANDED, text)
            self.assert_no_turn("names no commit")
        os.remove(f"{self.room}/{LANDED}")
        self.assert_no_turn("No such file")

    def test_a_landing_that_git_does_not_know(self):
        self.lay(LANDED, f"{'0' * 40}\n")
        self.assert_no_turn("merge-base")

    def test_a_landing_on_which_the_last_commit_does_not_stand(self):
        self.lay("crates/one/src/lib.rt", "//! The one.\n")
        later = self.commit()
        self.git("reset", "-q", "--hard", self.second)
        self.lay(LANDED, f"{later}\n")
        self.assert_no_turn("merge-base")

    def test_a_history_that_is_cut_short(self):
        shallow = f"{self.room}/shallow"
        self.git("clone", "-q", "--depth", "1", f"file://{self.room}", shallow)
        self.assert_no_turn("merge-base", shallow)
        self.git("fetch", "-q", "--unshallow", folder=shallow)
        self.assertEqual(turn_at(shallow, KIT).landed, self.first)

    def test_no_repository(self):
        self.lay(f"elsewhere/{LANDED}", f"{self.first}\n")
        with patch.dict("os.environ", {"GIT_CEILING_DIRECTORIES": self.room}):
            self.assert_no_turn("merge-base", f"{self.room}/elsewhere")
        with patch.dict("os.environ", {"PATH": "/nowhere"}):
            self.assert_no_turn("there is no git")

    def test_it_is_said_why_none_waits(self):
        with patch.object(command.toolchain, "version", lambda: KIT), patch("builtins.print") as said:
            self.assertEqual(command.turn_told(self.room).landed, self.first)
            self.assertIn("the interfaces of 0 crates have changed", said.call_args[0][0])
            os.remove(f"{self.room}/{LANDED}")
            self.assertIsNone(command.turn_told(self.room))
            self.assertIn("no edit waits for another turn", said.call_args[0][0])
