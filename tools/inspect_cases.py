"""The cases of `mrp inspect`: folders of tables, and what is told of each."""

import json
import os
import tempfile
from dataclasses import dataclass

from carry_cases import lay_bytes, run

TOP = os.path.dirname(os.path.dirname(os.path.realpath(__file__)))
CASES = os.path.join(TOP, "crates", "mrp_cases", "inspect")


def bytes_of(name):
    with open(os.path.join(CASES, name), "rb") as held:
        return held.read()


def lay_files(told, folder):
    """Writes what a bundle can't show: files under any name, a file in place of the folder, also one of a greater size, or nothing."""
    files = {name: text.encode("latin-1") for name, text in told.get("files", {}).items()}
    if told.get("folder") == "none":
        return
    if told.get("folder") == "file":
        files = {folder: files["shop"]}
    else:
        os.mkdir(folder)
    for name, text in files.items():
        with open(os.path.join(folder, name), "wb") as held:
            held.write(text)
            held.truncate(told.get("size", len(text)))


@dataclass
class Inspection:
    """A case: what is told of its folder, and the status, which is 0 where there is no fault."""

    case: str

    @property
    def name(self):
        return f"inspect {self.case}"

    def fault(self, program):
        """What is not as it must be, if anything is."""
        with tempfile.TemporaryDirectory() as room:
            folder = os.path.join(room, "shop")
            if os.path.exists(os.path.join(CASES, f"{self.case}.bundle")):
                lay_bytes(bytes_of(f"{self.case}.bundle"), folder)
            else:
                lay_files(json.loads(bytes_of(f"{self.case}.json")), folder)
            status, out, error = run(program, ["inspect", "--dir", folder])
        expected = bytes_of(f"{self.case}.inspect").decode()
        right = 0 if expected.splitlines()[-1].startswith("no faults") else 1
        if status != right:
            return f"status {status}, and not {right}"
        if error:
            return f"standard error has '{error}'"
        return None if out == expected else other_line(out, expected)


def other_line(out, expected):
    """The first line that differs."""
    ours, theirs = out.split("\n"), expected.split("\n")
    place = next((at for at, (one, other) in enumerate(zip(ours, theirs)) if one != other), min(len(ours), len(theirs)))
    return f"line {place + 1} is '{''.join(ours[place:place + 1])}', and not '{''.join(theirs[place:place + 1])}'"


def inspect_cases():
    names = sorted(name.removesuffix(".inspect") for name in os.listdir(CASES) if name.endswith(".inspect"))
    return [Inspection(name) for name in names]
