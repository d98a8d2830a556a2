"""The crates of crates.txt: what the program stands on, what each costs, and what is newer than the program."""

import os

PROGRAM = "mrp"
# What a crate costs is counted in lines of proof, at some 30 a second and process: a line of code costs 4/3 of one, and each crate
# costs 1,000, with 150 for each crate below it, which it loads, a program 5,000 more (fitted to the proofs of all crates from
# nothing; the error of one crate is up to a half).
EACH, BELOW, A_PROGRAM = 1000, 150, 5000
PARTS = ("src", "specs", "proofs")


def listed(top):
    """The crates of crates.txt: each with the crates that it stands on."""
    with open(os.path.join(top, "crates.txt"), encoding="utf-8") as lines:
        pairs = [line.partition(":")[::2] for line in lines if ":" in line and not line.startswith("#")]
    named = {name.split()[0]: below.split() for name, below in pairs}
    return {name: [it for it in below if it in named] for name, below in named.items()}


def standing_under(crates, name):
    """A crate and all that it stands on, each after what it stands on."""
    found = []
    for below in crates[name]:
        found += [it for it in standing_under(crates, below) if it not in found]
    return [*found, name]


def files_of(top, name):
    """The folders and files that a proof of the crate reads."""
    for part in PARTS:
        for at, _, files in os.walk(os.path.join(top, "crates", name, part)):
            yield at
            yield from (os.path.join(at, file) for file in files)


def lines_in(path):
    with open(path, "rb") as held:
        return held.read().count(b"\n")


def weight(top, name):
    """What the proof of a crate costs, as lines of proof."""
    found = [path for path in files_of(top, name) if os.path.isfile(path)]
    code = sum(lines_in(path) for path in found if path.endswith(".rt"))
    proof = sum(lines_in(path) for path in found if f"{os.sep}proofs{os.sep}" in path)
    is_program = os.path.isfile(os.path.join(top, "crates", name, "src", "main.rt"))
    below = len(standing_under(listed(top), name)) - 1
    return EACH + BELOW * below + A_PROGRAM * is_program + 4 * code // 3 + proof


def why_stale(top, program):
    """Why the program is not up to date: it is not there, or older than a source; None where it is."""
    if not os.access(program, os.X_OK):
        return f"{os.path.relpath(program, top)} is not built"
    built = os.stat(program).st_mtime_ns
    shared = [os.path.join(top, name) for name in ("crates.txt", "HANDLES")]
    crates = standing_under(listed(top), PROGRAM)
    newer = (path for path in [*shared, *(it for name in crates for it in files_of(top, name))] if os.stat(path).st_mtime_ns > built)
    first = next(newer, None)
    return first and f"{os.path.relpath(first, top)} is newer than {os.path.relpath(program, top)}"
