"""The libraries that the tools for tables need besides Python's own: openpyxl for workbooks, psycopg2 for PostgreSQL."""

import importlib
import sys

# Debian lays its packages for its own Python; another one of the same version takes them too.
DEBIAN = "/usr/lib/python3/dist-packages"


class NotInstalled(Exception):
    """A library is not installed: what to do."""


def library(name):
    """The module of this name, or NotInstalled."""
    try:
        return importlib.import_module(name)
    except ImportError:
        pass
    sys.path.append(DEBIAN)
    try:
        return importlib.import_module(name)
    except ImportError:
        package = f"python3-{name.partition('.')[0]}"
        raise NotInstalled(f"{package} is not installed: apt-get install {package}") from None
    finally:
        sys.path.remove(DEBIAN)


def is_installed(name):
    """Whether there is a module of this name."""
    try:
        return bool(library(name))
    except NotInstalled:
        return False
