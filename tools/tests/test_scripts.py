import concurrent.futures
import os
import subprocess
import unittest

TOOLS = os.path.dirname(os.path.dirname(os.path.realpath(__file__)))
TOP = os.path.dirname(TOOLS)
AT_A_TIME = 4


def scripts():
    """All commands at the top, in tools and in sites."""
    for folder in (TOP, TOOLS, os.path.join(TOP, "sites")):
        for name in sorted(os.listdir(folder)):
            path = os.path.join(folder, name)
            if os.path.isfile(path) and os.access(path, os.X_OK):
                yield path


def run(path, *words):
    how = {"stdin": subprocess.DEVNULL, "capture_output": True, "text": True, "timeout": 60, "check": False}
    return subprocess.run([path, *words], cwd="/", **how)


def run_all(*words):
    """Runs all of them with these words, some at a time: each with how it ended."""
    with concurrent.futures.ThreadPoolExecutor(AT_A_TIME) as pool:
        paths = list(scripts())
        yield from zip(paths, pool.map(lambda path: run(path, *words), paths))


class Scripts(unittest.TestCase):
    def test_there_are_some(self):
        names = {os.path.relpath(path, TOP) for path in scripts()}
        self.assertLessEqual({"plan", "look", "test", "install", "tools/gate", "tools/prove", "tools/pictures", "sites/night"}, names)

    def test_help_is_on_standard_output(self):
        for path, ended in run_all("--help"):
            with self.subTest(path=path):
                self.assertEqual((ended.returncode, ended.stderr), (0, ""))
                self.assertGreater(len(ended.stdout), 40)

    def test_a_word_that_is_not_known_is_refused(self):
        for path, ended in run_all("--no-such-word"):
            with self.subTest(path=path):
                self.assertEqual((ended.returncode, ended.stdout), (2, ""))
                self.assertNotEqual(ended.stderr, "")


if __name__ == "__main__":
    unittest.main()
