"""What a check says of functions, read from its lines: which are refused for a reason of their own, which only wait for others."""

import re
from dataclasses import dataclass, field

FUNCTION = re.compile(r"fn (\S+): (.*)")
DECLARATION = re.compile(r"(struct|enum|impl|trait|const|type|cycle) (\S+): (.*)")
PLACE = re.compile(r"note: (src/\S+:\d+:\d+: .*)")
OF_CALLS = re.compile(r"it calls ((?:`\S+`|,| |and)+), which (?:is|are) not proved")
OF_OTHERS = re.compile(r"(?:not proved; |no proof: )(?:of this cycle of calls: )?it calls (`\S+`|,| |and)+, which (is|are) not proved(; it passes the block .*)?")
# A function of a trait that stands on the written proof of another of its functions.
OF_PROOFS = re.compile(r"not proved; it stands on `Rattle\.(\w+)\.proofs\.(\S+)\.\w+\.\S+`, which antt refuses")
NAMED = re.compile(r"`(\S+?)`")
# What is said of a function where all goals without a written answer are left alone.
LEAVES = re.compile(r"`#\[tactic\(none\)\]` leaves (.*)")

PROOF_ERROR = re.compile(r"(?:\./)?proofs/(\S+)/\w+\.antt:\d+:\d+: error: (.*)")
ANSWER = re.compile(r"`([^`]+)`: ")
# An error of a written proof that says what the function does not meet, and one that only says that the proof does not read.
IS_REFUSAL = re.compile(
    r"the two (types|values) (first )?differ|expected type .*,? but this has type|is checked against `⊥`|does not follow"
    r"|no proof of .* was found"
)
# One that only says that a name is gone, and one that says that what the proof rests on is not admitted, whatever the reason.
TAKEN_AWAY = re.compile(r"has no field|is not in scope|has no `|is no name|\(nearest: ")
NOT_ADMITTED = re.compile(r"(was|is) not admitted")

# What is said of a function that is proved, and where the proofs of some are left open, of one that is proved but for these.
FINE = ("proved", "assumed", "no holes", "depends on a hole in ")


def is_fine(said):
    return said.startswith(FINE)


def joined(text):
    """The lines of what a check said, each with those that go on with it, which are indented."""
    lines = []
    for line in text.rstrip("\n").split("\n"):
        if line.startswith("  ") and lines:
            lines[-1] += " " + line.strip()
        else:
            lines.append(line)
    return lines


def lines_of(crate, text):
    """The lines of a check, each with those that go on with it, with this crate's files named from its folder."""
    return joined(re.sub(rf"(?m)^((?:note: )?){crate.name}/(?=src/|specs/|proofs/)", r"\1", text))


@dataclass
class Told:
    """What a check told of functions: why some are refused for themselves, of which proofs lost a name, for which others
    some wait, which were told of. Of copies of which some goals alone are tried: which are shown, and why others are not."""

    refused: dict = field(default_factory=dict)
    lost: set = field(default_factory=set)
    shown: set = field(default_factory=set)
    not_shown: dict = field(default_factory=dict)
    waiting: dict = field(default_factory=dict)
    seen: set = field(default_factory=set)
    others: list = field(default_factory=list)

    def not_proved(self):
        return {*self.refused, *self.lost, *self.waiting}

    def take_goals(self, name, goals, said, errors):
        """Takes what is said of a copy of which these goals alone are tried, and of their answers: a goal is shown where nothing
        is said against any answer, and it is not among those that are left."""
        left = LEAVES.search(said)
        if not errors and (left or is_fine(said)):
            self.shown |= {(name, goal) for goal in goals if not left or f"`{goal}`" not in left[1]}
        self.not_shown |= {(name, goal): line for goal, line in errors.items() if line}


def owner(name, functions):
    """The function of the list to which this one belongs: itself, or the one in whose body it is a closure."""
    plain = name.replace("::fn::", "::")
    return next((it for it in functions if name == it or plain.startswith(f"{it}::")), None)


def stands_on_proof_of(said, functions):
    """Whether a function that is said not to be proved is so for the written proof of one of these."""
    proof = OF_PROOFS.match(said)
    return bool(proof) and owner("::".join([proof[1], *proof[2].split(".")]), functions) is not None


# ---- errors of written proofs

def proof_errors(crate, lines):
    """Each error of a written proof: the function whose proof it is, what it says, and the whole line."""
    for error in filter(None, map(PROOF_ERROR.match, lines)):
        yield f"{crate.name}::" + error[1].replace("/", "::"), error[2], error[0]


def says_what_lacks(error):
    """Whether an error of a written proof says what the function does not meet, and not that the proof does not read."""
    return bool(IS_REFUSAL.search(error)) and not TAKEN_AWAY.search(error) and not NOT_ADMITTED.search(error)


def answers_in_error(crate, lines, goals):
    """What is said against answers of the functions of which goals alone are tried: a line that says what the goal lacks, or
    nothing where one says only that the answer can't be read."""
    found = {}
    for name, error, line in proof_errors(crate, lines):
        if name in goals:
            answer = ANSWER.match(error)
            said, goal = found.setdefault(name, {}), answer[1] if answer else ""
            said[goal] = line if says_what_lacks(error) and said.get(goal, True) else None
    return found


class ProofErrors:
    """What is said against written proofs, by their functions: of which a name is gone, which rest on what is not admitted, and of
    the others the first line that says what the function does not meet."""

    def __init__(self, crate, lines):
        self.lost, self.unread, self.refusals = set(), set(), {}
        for name, error, line in proof_errors(crate, lines):
            if TAKEN_AWAY.search(error):
                self.lost.add(name)
            elif NOT_ADMITTED.search(error):
                self.unread.add(name)
            elif IS_REFUSAL.search(error):
                self.refusals.setdefault(name, line)

    def refusal_of(self, name):
        """The line that refuses a function, where its written proof reads."""
        return None if name in self.lost | self.unread else self.refusals.get(name)


# ---- what is told of each function

class Reader:
    """Reads the lines of a check of a crate for what they tell of its functions, of those that are asked for by name."""

    def __init__(self, crate, lines, functions, empty, goals):
        self.crate, self.lines, self.functions, self.goals = crate, lines, functions, goals
        self.told, self.errors = Told(), ProofErrors(crate, lines)
        self.answers = answers_in_error(crate, lines, goals)
        # (where proofs are left open, what stands on one of these is not called proved either)
        self.fine = empty | {it[1] for it in map(FUNCTION.match, lines) if it and is_fine(it[2])}

    def read(self):
        place = ""
        for line in self.lines:
            noted, declaration, function = PLACE.match(line), DECLARATION.match(line), FUNCTION.match(line)
            if noted:
                place = noted[1]
            elif declaration or function:
                self.take(line, declaration or function, place)
                place = ""
        return self.told

    def take(self, line, match, place):
        """Takes a line on a declaration or a function, in front of which this place was told."""
        name, said = match.groups()[-2:]
        if not name.startswith(f"{self.crate.name}::"):
            return
        if match.re is FUNCTION:
            self.take_function(line, name, said, place)
        elif not is_fine(said):
            self.told.others.append(line)

    def take_function(self, line, told_of, said, place):
        self.told.seen.add(told_of)
        name = owner(told_of, self.functions) or told_of
        if name not in self.goals:
            if not is_fine(said):
                self.take_refusal(line, told_of, name, said, place)
        elif name == told_of:
            self.told.take_goals(name, self.goals[name], said, self.answers.get(name, {}))

    def take_refusal(self, line, told_of, name, said, place):
        """Takes a line on a function that is not proved, by the name of the function that was asked for, if it belongs to one."""
        calls = OF_CALLS.search(said)
        waits = bool(calls) and not self.fine.issuperset(NAMED.findall(calls[1]))
        # (what it has to show hangs by the contracts of what it calls, whether or not that is proved)
        refusal = self.errors.refusal_of(told_of)
        if "`search` did not prove" in said:
            self.told.refused.setdefault(name, place or line)
        elif refusal:
            self.told.refused.setdefault(name, refusal)
        elif told_of in self.errors.lost and not waits:
            self.told.lost.add(name)
        elif OF_OTHERS.fullmatch(said) or waits and name in self.functions:
            self.told.waiting.setdefault(name, set()).update(NAMED.findall(calls[1]))
        elif said != "not proved" and name not in self.functions and not stands_on_proof_of(said, self.functions):
            self.told.others.append(line)


def told_by(crate, lines, functions, empty=frozenset(), goals=None):
    """What these lines of a check tell of a crate's functions: of these asked for, where those of `empty` have no bodies, and of
    those of `goals` these goals alone are tried."""
    return Reader(crate, lines, functions, empty, goals or {}).read()
