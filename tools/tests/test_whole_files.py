"""Folders that are replaced, and kills meanwhile."""

import errno
import fcntl
import os
import shutil
import signal
import sys
import tempfile
import unittest
from unittest.mock import patch

import whole_files
from whole_files import Refused, exchange, look_at_folder, whole_folder

NAMES = ("a.csv", "b.csv")
# What a run does to the disk, as Python tells it beforehand; the exchange by its loading.
STEPS = {"os.mkdir", "os.rename", "os.rmdir", "os.remove", "open", "ctypes.dlsym"}


def write(folder, text):
    """Writes both files, in place of those that are there."""
    with whole_folder(folder, NAMES, True) as made:
        for name in NAMES:
            with open(os.path.join(made, name), "w", encoding="utf-8") as held:
                held.write(text)


def killed_after(steps, run):
    """Whether a run was killed after so many steps; otherwise it has ended well."""
    child = os.fork()
    if not child:
        ended = 1
        try:
            left = iter(range(steps))
            sys.addaudithook(
                lambda event, _: event in STEPS and next(left, None) is None and os.kill(os.getpid(), signal.SIGKILL)
            )
            run()
            ended = 0
        finally:
            os._exit(ended)
    _, status = os.waitpid(child, 0)
    if os.WIFSIGNALED(status):
        return True
    assert os.WEXITSTATUS(status) == 0
    return False


class Replaced(unittest.TestCase):
    def setUp(self):
        self.top = tempfile.mkdtemp()
        self.addCleanup(shutil.rmtree, self.top)
        self.folder = os.path.join(self.top, "shop")

    def texts(self):
        """What the files of the folder hold, or None where it is not there."""
        if not os.path.lexists(self.folder):
            return None
        texts = []
        for name in sorted(os.listdir(self.folder)):
            with open(os.path.join(self.folder, name), encoding="utf-8") as held:
                texts.append(held.read())
        return texts

    def kills(self):
        """Kills a run after each of its steps: what was there just after, and what once the next run has begun."""
        found = []
        for steps in range(100):
            write(self.folder, "old")
            if not killed_after(steps, lambda: write(self.folder, "new")):
                self.assertEqual(self.texts(), ["new"] * 2)
                return found
            after = self.texts()
            look_at_folder(self.folder, NAMES, True)
            found.append((after, self.texts()))
            rooms = [name for name in os.listdir(self.top) if name != "shop"]
            # (one that is empty may be another run's, just made)
            self.assertEqual([os.listdir(os.path.join(self.top, name)) for name in rooms], [[]] * len(rooms))
            for name in rooms:
                os.rmdir(os.path.join(self.top, name))
        self.fail("it does not end")

    def test_a_kill(self):
        """The old files are there, or all new ones: never a moment without."""
        if not self.can_exchange():
            self.skipTest("the disk can not exchange names")
        found = self.kills()
        self.assertEqual({tuple(after) for after, _ in found}, {("old", "old"), ("new", "new")})
        self.assertTrue(all(after == then for after, then in found))

    def test_a_kill_where_names_can_not_be_exchanged(self):
        """There may be a moment without, and the next run ends it."""
        with patch.object(whole_files, "exchange", lambda one, other: False):
            found = self.kills()
        self.assertEqual([then for after, then in found if after is None], [["new"] * 2])
        self.assertEqual({tuple(then) for _, then in found}, {("old", "old"), ("new", "new")})

    def can_exchange(self):
        ends = [os.path.join(self.top, name) for name in ("one", "other")]
        for end in ends:
            os.mkdir(end)
        try:
            return exchange(*ends)
        finally:
            for end in ends:
                os.rmdir(end)

    def test_what_a_system_without_it_says(self):
        for missing in (AttributeError, OSError):
            with patch("ctypes.CDLL", side_effect=missing):
                self.assertFalse(exchange(self.folder, self.top))
        with self.assertRaises(FileNotFoundError):
            exchange(os.path.join(self.top, "none"), self.folder)

    def test_folders_beside_that_are_none_of_these(self):
        """Of another run that goes on, of somebody else, and links."""
        for name in (".shop.running/new", ".shop.kept/new", ".shop.kept/mine", ".shopping.x/new", "shop.x/new"):
            os.makedirs(os.path.join(self.top, name))
        os.symlink(self.top, os.path.join(self.top, ".shop.link"))
        with open(os.path.join(self.top, ".shop.swp"), "w", encoding="utf-8"):
            before = sorted(os.listdir(self.top))
        held = os.open(os.path.join(self.top, ".shop.running"), os.O_RDONLY)
        fcntl.flock(held, fcntl.LOCK_EX)
        self.addCleanup(os.close, held)
        write(self.folder, "new")
        self.assertEqual(sorted(os.listdir(self.top)), sorted([*before, "shop"]))
        self.assertEqual(self.texts(), ["new"] * 2)

    def test_a_disk_without_locks(self):
        write(self.folder, "old")
        os.makedirs(os.path.join(self.top, ".shop.left", "new"))
        with patch("fcntl.flock", side_effect=OSError(errno.ENOLCK, os.strerror(errno.ENOLCK))):
            write(self.folder, "new")
        self.assertEqual((self.texts(), sorted(os.listdir(self.top))), (["new"] * 2, [".shop.left", "shop"]))

    def test_a_failure_leaves_the_old_ones(self):
        write(self.folder, "old")
        with self.assertRaises(Refused), whole_folder(self.folder, NAMES, True):
            raise Refused("no")
        self.assertEqual((self.texts(), os.listdir(self.top)), (["old"] * 2, ["shop"]))


if __name__ == "__main__":
    unittest.main()
