"""Commands that are run to their end."""

import subprocess

from .processes import SECONDS


def run(program, words, given=b""):
    """Runs a program: its status, what it wrote, and what it said."""
    ended = subprocess.run([program, *words], input=given, capture_output=True, timeout=SECONDS, check=False)
    return ended.returncode, ended.stdout, ended.stderr.decode(errors="replace").strip()
