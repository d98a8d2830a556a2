"""What the program says of the tables that were written."""

import os
import shutil
import subprocess

TOP = os.path.dirname(os.path.dirname(os.path.dirname(os.path.realpath(__file__))))


def programs():
    """The program as it is in the path, and as it is built here."""
    found = [shutil.which("mrp"), os.path.join(TOP, "bin", "mrp")]
    return [path for path in dict.fromkeys(found) if path and os.access(path, os.X_OK)]


def run(*words, **how):
    return subprocess.run(
        words, stdin=subprocess.DEVNULL, stderr=subprocess.PIPE, text=True, errors="replace", check=False, **how
    )


def inspects(program):
    """Whether a program has the command `inspect`."""
    return run(program, "inspect", "--help", stdout=subprocess.DEVNULL).returncode == 0


def ask(folder, found=None):
    """Has the program look at a folder: what was run and what it said, and whether it found no fault."""
    found = programs() if found is None else found
    if not found:
        return ["no mrp was found, in the path or as bin/mrp: nothing has looked at the tables"], True
    program = next(filter(inspects, found), None)
    if program:
        ended = run(program, "inspect", "--dir", folder, stdout=subprocess.PIPE)
        said = ended.stdout + ended.stderr
        return [f"{program} inspect --dir {folder}:", *said.splitlines()], ended.returncode == 0
    return ask_plan(found[0], folder)


def ask_plan(program, folder):
    """The same of a program that does not inspect: it plans, and tells its first fault."""
    asked = f"{program} plan --dir {folder}"
    ended = run(program, "plan", "--dir", folder, stdout=subprocess.DEVNULL)
    if ended.returncode == 0:
        return [f"{asked} finds no fault (this mrp has no inspect)", *ended.stderr.splitlines()], True
    said = ended.stderr.splitlines() or [f"it ended with status {ended.returncode}"]
    return [f"this mrp has no inspect; its first fault, by {asked}:", *said], False
