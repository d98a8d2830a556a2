"""C files that are loaded before the C library, as the toolchain's clang builds them."""

import os
import subprocess

from edits_runner import toolchain

from .folders import TOP


def build(name, room):
    """Builds tools/NAME.c in a folder: the library."""
    library = os.path.join(room, f"{name}.so")
    clang = os.path.join(toolchain.folder(), "toolchain", "bin", "clang")
    how = ["-shared", "-fPIC", "-O1", "-nostdlib", "-fuse-ld=lld", "-Wall", "-Wextra", "-Werror"]
    subprocess.run([clang, *how, "-o", library, os.path.join(TOP, "tools", f"{name}.c")], check=True)
    return library
