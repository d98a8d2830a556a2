"""The functions of a crate and their bodies, as far as the layout that `rt fmt` gives tells them.

The runner rests on it for what it tries together, and for whether an edit lies in the body that it names. A check of a text
that comes out wrong is not believed."""

import glob
import os
import re
from dataclasses import dataclass

HEAD = re.compile(r"( *)(?:pub(?:\([a-z]+\))? )?(?:unsafe )?fn (\w+)")
OWNER = re.compile(r"(?:impl|(?:pub(?:\([a-z]+\))? )?trait)\b")


@dataclass
class Body:
    """A function, by the numbers of its lines: the first of what stands right above its head, the head, the first of its
    body and that behind its body; and the line that begins the block it stands in, or nothing."""

    name: str
    indent: str
    first: int
    head: int
    begin: int
    end: int
    owner: str
    above: str

    def is_bound_to_its_name(self):
        """Whether it can have no copy and has to keep its body: a method of a trait, a member of a cycle of calls, `main`."""
        is_of_trait = " for " in self.owner or re.search(r"\btrait\b", self.owner)
        return bool(is_of_trait or "#[cycle" in self.above or self.name == "main")


def bodies(lines):
    """The functions with bodies in a file's lines."""
    for at, line in enumerate(lines):
        head = HEAD.match(line)
        if not head:
            continue
        indent = head[1]
        end = next((it for it in range(at, len(lines)) if lines[it] == f"{indent}}}"), at)
        opens = re.compile(rf"{indent}(\S.* )?\{{$")
        begin = next((it + 1 for it in range(at, end) if opens.match(lines[it])), end)
        if begin >= end:
            continue
        first = at
        while first and lines[first - 1].startswith(indent) and not re.match(r"\s*(\}|$)", lines[first - 1]):
            first -= 1
        owner = next((it for it in reversed(lines[:first]) if OWNER.match(it)), "") if indent else ""
        yield Body(head[2], indent, first, at, begin, end, owner, "\n".join(lines[first:at]))


def body_at(lines, number):
    """The function in whose body this line lies, or None."""
    return next((it for it in reversed([*bodies(lines)]) if it.begin <= number < it.end), None)


# ---- the paths of functions

def module_of(file):
    """The parts of the path below the crate of what a file of src/ has: `src/day/runs.rt` is the module `day::runs`, and
    `src/day.rt` and `src/day/mod.rt` are the module `day`."""
    parts = file.removesuffix(".rt").split("/")[1:]
    if parts in (["lib"], ["main"]):
        return []
    return parts[:-1] if parts[-1] == "mod" else parts


def files_of(folder):
    """The files of a crate's code, by their paths below its folder."""
    return sorted(os.path.relpath(path, folder) for path in glob.glob(f"{folder}/src/**/*.rt", recursive=True))


def owner_of(head):
    """The prover's name for the block of an impl: its type's name, followed by that of its trait."""
    was = None
    while was != head:
        head, was = re.sub(r"<[^<>]*>", "", head), head
    of, _, owner = re.sub(r" where .*", "", head).strip().rpartition(" for ")
    return owner.rpartition("::")[2].strip() + of.rpartition("::")[2].strip()


def parts_of(file, body):
    """The parts of a function's path below the crate: its module's, the block's that it stands in, its name."""
    owner = [owner_of(body.owner.removeprefix("impl").rstrip(" {"))] if body.indent else []
    return [*module_of(file), *owner, body.name]


def found_below(name, calls):
    """The functions that this one calls, and that those call, and so on."""
    found, left = set(), [name]
    while left:
        more = calls.get(left.pop(), set()) - found
        found |= more
        left += more
    return found


TYPE = re.compile(r"(?m)^(?:pub(?:\([a-z]+\))? )?(?:struct|enum) (\w+)\b")


def modules_of_types(texts):
    """The modules in which a type of a name is declared, by these names, in the files of a crate with these texts."""
    found = {}
    for file, text in texts.items():
        for name in TYPE.findall(text):
            found.setdefault(name, []).append(module_of(file))
    return found


def path_of(file, body, types):
    """The parts of a function's path below the crate, where its place and the modules of types tell them, or None. A method is
    named below the module of its type, in whatever file it stands."""
    if not body.indent:
        return parts_of(file, body)
    is_generic, (owner, name) = body.owner.startswith("impl<"), parts_of(file, body)[-2:]
    # (the methods for one argument of a type alone have another path)
    if not body.owner.startswith("impl") or "<" in body.owner and not is_generic and not "<'" in body.owner:
        return None
    modules = types.get(owner, [])
    if module_of(file) in modules:
        return [*module_of(file), owner, name]
    return [*modules[0], owner, name] if len(modules) == 1 else None


# ---- functions without their bodies

def emptied(file, text, spares, types):
    """A file's text with no bodies but of those functions that are spared, and the paths of the functions that have none, where
    types are declared in these modules."""
    lines, paths = text.split("\n"), []
    for body in reversed([*bodies(lines)]):
        path = None if body.is_bound_to_its_name() or spares(body) else path_of(file, body, types)
        if path:
            lines[body.begin : body.end] = [f"{body.indent}    loop {{}}"]
            paths.append(path)
    return "\n".join(lines), paths


def without_main(text):
    """The text of a program's root without `main`."""
    lines = text.split("\n")
    for body in [it for it in bodies(lines) if it.name == "main" and not it.indent]:
        del lines[body.first : body.end + 1]
    return "\n".join(lines)
