"""What became of each site: a small file `state.json` beside its plan."""

import json
import os
from dataclasses import asdict, dataclass
from enum import StrEnum


class Word(StrEnum):
    """How a site stands. `RUNNING` is left by a job that was ended."""

    PLANNED = "planned"
    REFUSED = "refused"
    WAITS = "waits"
    STOPPED = "stopped"
    RUNNING = "running"


@dataclass
class State:
    """How a site stands, and why where it isn't planned; of a refused one what tells from what; the night that looked at it last, and
    whether that planned or refused it anew."""

    word: str
    why: str = ""
    key: str = ""
    night: str = ""
    is_new: bool = False


def path_of(out, site):
    return os.path.join(out, site, "state.json")


def read_state(out, site):
    """The state of a site, or None where there is none that can be read."""
    try:
        with open(path_of(out, site), encoding="utf-8") as held:
            return State(**json.load(held))
    except (OSError, ValueError, TypeError):
        return None


def write_state(out, site, state):
    write_json(path_of(out, site), asdict(state))


def write_json(path, value):
    """Writes a file that is whole under its name."""
    write_whole(path, json.dumps(value, indent=1, sort_keys=True) + "\n")


def write_whole(path, text):
    made = f"{path}.{os.getpid()}.part"
    with open(made, "w", encoding="utf-8") as held:
        held.write(text)
    os.replace(made, path)
