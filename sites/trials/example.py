"""The example of three sites, whose plans were made by hand and looked over: two sites buy motors from a third."""

import os
import shutil

from .nights import SITES, Tried

EXAMPLE = os.path.join(SITES, "example")
# The files that must be as expected, with where they stand in a plan.
EXPECTED = {"day": "day", "drp.csv": "drp.csv", "releases.csv": "releases.csv", "master.csv": "tables/master.csv"}


def faults_in(folder):
    """The files of the plans that are not as expected."""
    for site in sorted(os.listdir(os.path.join(EXAMPLE, "expected"))):
        for name, place in EXPECTED.items():
            with open(os.path.join(EXAMPLE, "expected", site, name), "rb") as held:
                wanted = held.read()
            path = os.path.join(folder, "out", site, "plan", place)
            if not os.path.exists(path):
                yield f"{site} has no {place}"
                continue
            with open(path, "rb") as held:
                if held.read() != wanted:
                    yield f"{place} of {site}"


def look_at_example(folder, words):
    """Plans the example twice, and says whether its files are as expected; a list of whether each night was."""
    shutil.copytree(EXAMPLE, folder, ignore=shutil.ignore_patterns("expected", "out", "night", ".snakemake"))
    tried, ends = Tried(folder, words), []
    for is_new in (3, 0):
        ended, said = tried.night(), f"3 sites: 3 planned, 0 refused, 0 stopped, 0 waits; {is_new} anew"
        faults = list(faults_in(folder)) if (ended.status, ended.said) == (0, said) else [f"status {ended.status}"]
        end = f"NOT as it must be: {', '.join(faults)}" if faults else "as it must be"
        print(f"sites, the example: {ended.said}: {end} ({ended.seconds:.1f} s)", flush=True)
        ends.append(not faults)
    return ends
