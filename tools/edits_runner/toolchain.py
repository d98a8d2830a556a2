"""The toolchain as the runner knows it: its script `rt`, loaded as a module.

The script knows where libraries lie and with what words a crate is checked. Nothing promises that another toolchain's script
has the same names, or that its prover says in the same words why it refuses a function (verdicts.py reads those words). So the
runner works with the versions that it was tried with and says so at once where it finds another.

For a new toolchain: compare what is used here with its `rt` and `rtlib.py`, run the unit tests, then `tools/edits --unspoiled`
and `tools/edits`, controls among them, and change KNOWN once all of that is well."""

import functools
import importlib.machinery
import importlib.util
import os
import re
import shutil
import subprocess
import threading

# The first word of what `rt version` prints, of each toolchain that the runner was tried with.
KNOWN = ("rattle-kit-13b", "rattle-kit-13f")


# Where the program's version names the toolchain that proves it.
NAMING = "crates/mrp_words/src/command.rt"
NAMED = re.compile(r'const VERSION: &str = "[\d.]+ \(proved with (\S+)\)";')


class OtherToolchain(Exception):
    """There is no toolchain, or it is another than the one that the runner knows."""


def identity():
    """What `rt version` prints."""
    try:
        ran = subprocess.run(["rt", "version"], stdin=subprocess.DEVNULL, capture_output=True, text=True, check=True)
    except (OSError, subprocess.CalledProcessError) as error:
        raise OtherToolchain(f"`rt version` says nothing: {error}") from error
    return ran.stdout.strip()


def version():
    """The name of the toolchain, the first word of that."""
    return identity().partition(" ")[0]


def named_by(text):
    """The toolchain that the program's version names, which stands in this text, or None."""
    named = NAMED.search(text)
    return named[1] if named else None


def require_known(found):
    """Raises OtherToolchain unless this is what a known toolchain's `rt version` prints."""
    if found.split(" ")[0] not in KNOWN:
        what = f"this runner knows the toolchains {' and '.join(KNOWN)}, and `rt version` says '{found}'"
        raise OtherToolchain(f"{what}: tools/edits_runner/toolchain.py says what to do")


class Stamps:
    """How the toolchain sums what a library is made from. A crate's sum asks for those of the crates that it stands on, and theirs
    for theirs: once for each way down, of which there are thousands. Here each crate is summed once in a sum."""

    def __init__(self, summed):
        self.summed, self.known = summed, threading.local()

    def of(self, crate):
        found = getattr(self.known, "sums", None)
        if found is None:
            self.known.sums = {}
            try:
                return self.summed(crate)
            finally:
                self.known.sums = None
        if crate.folder not in found:
            found[crate.folder] = self.summed(crate)
        return found[crate.folder]


@functools.cache
def script():
    """The toolchain's `rt` as a module. Raises OtherToolchain."""
    require_known(identity())
    loader = importlib.machinery.SourceFileLoader("rt_main", os.path.realpath(shutil.which("rt")))
    made = importlib.util.module_from_spec(importlib.util.spec_from_loader("rt_main", loader))
    loader.exec_module(made)
    # (the first call sets a signal's handler, which only the main thread may do)
    made.rtlib.guarded()
    stamps = Stamps(made.rtlib.Crate.stamp)
    made.rtlib.Crate.stamp = lambda crate: stamps.of(crate)
    return made


def folder():
    """The folder of the toolchain."""
    return script().rtlib.KIT


def crates_below(top):
    """The crates of a repository, lowest first."""
    return script().rtlib.crates_below(top)


def parts_of_a_crate():
    """The folders of a crate that a check reads."""
    return script().rtlib.PARTS


def checker():
    """The words that start a check, which ends when this process does."""
    return [*script().rtlib.guarded(), script().rtlib.RATTLE, "check"]


def processors():
    """How many processors there are to use."""
    return script().processors()


def free_memory():
    """The free memory, in bytes."""
    return script().free()


def cannot_be_read(line, texts):
    """Whether a line of a check says that the prover could not read one of these texts."""
    return script().unread(line, texts)


def has_stale_library(text):
    """Whether a check says that what is kept of a library below could not be used."""
    return bool(script().rtlib.STALE.search(text))
