"""The desks that documents show: each tried by the program as its section says, from the commands that stand in front of its table,
which lose no call where they are typed again."""

import itertools
import os
import re
import shlex
import subprocess
import tempfile
from dataclasses import dataclass

from .folders import JOURNAL, SHOPS, TOP, get
from .processes import SECONDS, Desk, Stuck
from .transcripts import faults_beside_plan

DOCUMENTS = ("README.md", os.path.join("docs", "DESK.md"))
HEAD = ["You type", "It answers"]
# A row: what is typed, and what it answers, behind which words may explain it.
ROW = re.compile(r"\| *`([^`|]+)` *\| *`([^`|]+)`[^`|]*\|")
# The last command in front of a table: it opens the desk on a folder of the home folder.
OPENS = re.compile(r"bin/mrp desk --dir ~/(\w+)")


class Unread(Exception):
    """A section shows a desk otherwise than can be tried."""


@dataclass(frozen=True)
class Shown:
    """What a section shows: commands of which the last opens a desk on a folder, what is typed and answered in rows, and commands
    for afterwards."""

    commands: list
    folder: str
    rows: list
    afterwards: list


def is_head(line):
    return [cell.strip() for cell in line.strip("|").split("|")] == HEAD


def row_of(line):
    found = ROW.fullmatch(line)
    if not found:
        raise Unread(f"this row is not read: {line}")
    return found[1], found[2]


def shown_in(section):
    """What a section shows."""
    lines = section.splitlines()
    heads = [at for at, line in enumerate(lines) if is_head(line)]
    if len(heads) != 1:
        raise Unread(f"it shows {len(heads)} desks")
    rows = [*itertools.takewhile(lambda line: line.startswith("|"), lines[heads[0] + 2 :])]
    commands = [line.strip() for line in lines[: heads[0]] if line.startswith("    ")]
    opens = OPENS.fullmatch(commands[-1]) if commands else None
    if not opens or not rows:
        raise Unread("no command opens its desk" if rows else "it has no rows")
    behind = "\n".join(lines[heads[0] + 2 + len(rows) :])
    return Shown(commands, opens[1], [row_of(line) for line in rows], re.findall(r"`(bin/mrp [^`]+)`", behind))


def script(room, commands):
    """The words that run commands in a folder as a shell does."""
    return ["sh", "-ec", "\n".join([f"cd {shlex.quote(room)}", *commands])]


def faults_of_answers(shown, out):
    """What of the answers is not as it is shown."""
    found = out.decode(errors="replace").splitlines()
    if len(found) != len(shown.rows):
        yield f"{len(found)} answers to {len(shown.rows)} lines"
    for (typed, right), answer in zip(shown.rows, found):
        if answer != right:
            yield f"`{typed}` is answered `{answer}`, and not `{right}`"


def faults_of_desk(shown, room, env):
    """Opens the desk that is shown, types its lines, each once those before are answered, and finds what is not as it must be."""
    desk = Desk(script(room, shown.commands), env=env)
    try:
        for place, (typed, _) in enumerate(shown.rows):
            if not desk.send(f"{typed}\n".encode()) or not desk.take(place + 1):
                break
        status, out, said = desk.end()
    except Stuck:
        desk.kill()
        return ["it did not answer, or end, in time"], b""
    end = [f"it ends with status {status} and {said!r}"] if status or said else []
    return [*faults_of_answers(shown, out), *end], out


def faults_of_command(command, room, env):
    """What of a command is not as it must be: it ends well and says nothing."""
    ended = subprocess.run(script(room, [command]), env=env, capture_output=True, timeout=SECONDS, check=False)
    return [f"`{command}` ends with status {ended.returncode} and {ended.stderr!r}"] if ended.returncode or ended.stderr else []


def faults_typed_again(shown, room, env):
    """What is lost where all commands are typed again, as on the next morning: no call may be."""
    journal = os.path.join(env["HOME"], shown.folder, JOURNAL)
    before = get(journal)
    how = {"stdin": subprocess.DEVNULL, "capture_output": True, "timeout": SECONDS, "check": False}
    subprocess.run(script(room, shown.commands), env=env, **how)
    return [] if get(journal) == before else [f"its commands, typed again, change {JOURNAL}"]


def faults_of(shown, program):
    """Does what is shown, in a copy of what the commands name, and finds what is not as it must be."""
    with tempfile.TemporaryDirectory() as room:
        home = os.path.join(room, "home")
        os.mkdir(home)
        os.mkdir(os.path.join(room, "bin"))
        os.symlink(program, os.path.join(room, "bin", "mrp"))
        os.symlink(SHOPS, os.path.join(room, "shops"))
        env = {**os.environ, "HOME": home}
        faults, out = faults_of_desk(shown, room, env)
        faults += faults_beside_plan(program, os.path.join(home, shown.folder), out)
        faults += itertools.chain(*(faults_of_command(command, room, env) for command in shown.afterwards))
        return [*faults, *faults_typed_again(shown, room, env)]


@dataclass
class Manual:
    """A section of a document that shows a desk."""

    name: str
    section: str

    def fault(self, program):
        """What is not as it must be, if anything is."""
        try:
            return "\n  ".join(faults_of(shown_in(self.section), program)) or None
        except Unread as why:
            return str(why)


def manuals_of(document, text):
    """The sections of a document that show a desk; one that shows none where there is none, and so fails."""
    sections = [section for section in re.split(r"(?m)^## ", text) if any(is_head(line) for line in section.splitlines())]
    return [Manual(f"{document}, {section.splitlines()[0]}", section) for section in sections] or [Manual(document, "")]


def manuals():
    found = []
    for document in DOCUMENTS:
        with open(os.path.join(TOP, document), encoding="utf-8") as held:
            found += manuals_of(document, held.read())
    return found
