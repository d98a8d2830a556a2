"""A trial: the edits of one crate, tried in rounds, and what is left of them alone."""

import tempfile
from dataclasses import replace

from .bodies import found_below
from .checks import CHECKS, check, take_what_is_proved
from .copies import copies_of
from .judging import LOST, judge_alone, judge_rounds
from .rounds import Round, empty_round, not_in_the_way, round_of
from .verdicts import Told


class Trial:
    """The edits of one crate, tried in rounds and then alone."""

    def __init__(self, crate, edits, is_proved, say, is_spoiled=True):
        edits = edits if is_spoiled else [replace(edit, goal=None) for edit in edits]
        self.crate, self.edits, self.is_proved, self.say = crate, edits, is_proved, say
        self.refused, self.lost, self.alone = {}, [], []
        # What edited functions were found to wait for.
        self.stands_on = {}
        # Those that wait for a function without a body, or are not refused where there are none.
        self.whole = set()
        copies = {edit: copies_of(crate, edit, number, is_spoiled) for number, edit in enumerate(edits)}
        self.copies = {edit: made for edit, made in copies.items() if made}
        # The next round, and what a check of several crates told of it; of copies next to edits in place, what one told.
        self.opened, self.placed = None, None
        self.in_place = [edit for edit in edits if edit not in self.copies]
        if not is_spoiled:
            self.edits = self.one_of_each_function()
        # What is not decided: edits in no round, rounds that are tried as they are, and which of the former a round has tried.
        self.left, self.split, self.waited = [*self.edits], [], []

    def one_of_each_function(self):
        """Of the edits by copies those that name a function which none before does: their copies as they stand are all."""
        seen, found = set(), []
        for edit in self.copies:
            if not edit.functions <= seen:
                found.append(edit)
                seen |= edit.functions
        return found

    def opens(self):
        """The edits of the next round that can be tried without other bodies and next to those of other crates."""
        edits = [] if self.split else self.next_round(self.left, self.waited)
        return [] if self.whole.intersection(edits) else edits

    def opening(self):
        """The round of these, without other bodies."""
        return empty_round(self.crate, round_of(self.crate, self.opens(), self.copies))

    def placing(self):
        """The copies as they stand next to as many edits in place as go together, without other bodies."""
        in_place = not_in_the_way(self.crate, self.in_place, self.stands_on)
        return empty_round(self.crate, round_of(self.crate, [*self.edits, *in_place], self.copies))

    def run_rounds(self, kept):
        """Tries all edits of which there can be copies in one check, with as many of the others as go together, and then what is left."""
        while self.left or self.split:
            edits = self.split.pop() if self.split else self.next_round(self.left, self.waited)
            if edits:
                self.run_round(edits, kept)

    def run_round(self, edits, kept):
        """Tries these edits in a round, or takes what a check of several crates told of it."""
        self.left = [edit for edit in self.left if edit not in edits]
        (tried, told, why), self.opened = self.opened or self.judge(edits, kept), None
        if told is None:
            self.split += self.parted(edits, tried, why)
            return
        later = self.take(tried, told)
        self.say(f"{len(edits) - len(later)} edits of {len(edits)} are decided, {len(self.left) + len(later)} left")
        if len(later) < len(edits):
            self.left, self.waited = self.left + later, self.waited + later
        else:
            self.split += [[edit] for edit in later]

    def take_opened(self, tried, told):
        """Takes what a check of several crates told of the next round."""
        self.opened = tried, told, None
        self.run_round([*tried.names], None)

    def parted(self, edits, tried, why):
        """The rounds in which the edits of one that is not believed are tried; what cannot be parted is tried alone."""
        wrong = tried.in_error(tried.errors)
        if len(edits) == 1:
            self.alone.append((edits[0], why))
            return []
        if wrong:
            self.alone += [(edit, why) for edit in wrong]
            return [[edit for edit in edits if edit not in wrong]]
        self.say(f"a round of {len(edits)} is split: {why}")
        return [edits[: len(edits) // 2], edits[len(edits) // 2 :]]

    def judge(self, edits, kept):
        """The round of these edits, and what is told of it: with no other bodies than those, and where that is not believed, or
        one of them has to be tried so, with the crate as it stands."""
        tried, told = round_of(self.crate, edits, self.copies), None
        if not self.whole.intersection(edits):
            empty = empty_round(self.crate, tried)
            told, why = judge_rounds({self.crate: empty})[self.crate]
            if told or empty.in_error(empty.errors):
                return empty, told, why
            self.say(f"{len(edits)} edits are tried in the crate as it stands: {why}")
        return tried, *judge_rounds({self.crate: tried}, kept)[self.crate]

    def next_round(self, left, waited):
        """The edits by copies, and as many in place as are not in each other's way or in that of a copy that waited before."""
        by_copy = [edit for edit in left if edit in self.copies]
        in_place = [edit for edit in left if edit not in self.copies]
        return by_copy + not_in_the_way(self.crate, in_place, self.stands_on, [edit for edit in by_copy if edit in waited])

    def take(self, tried, told):
        """Keeps what a believed round says of its edits, and returns those that wait for others or are not refused without bodies:
        they are tried again."""
        return [edit for edit, names in tried.names.items() if self.is_tried_again(edit, names, tried, told)]

    def is_tried_again(self, edit, names, tried, told):
        """Keeps what a believed round says of an edit, of which it tried these functions, or says that it is tried again."""
        found = sorted(names & {*told.refused})
        has_goal = bool(names & tried.goals().keys())
        if found:
            self.refused[edit] = told.refused[found[0]]
        elif has_goal and edit.is_harmless:
            self.take_control(edit, names <= {name for name, _ in told.shown})
        elif has_goal:
            self.say(f"{edit.name} is tried with all goals: that which it names does not tell")
            self.copies[edit] = copies_of(self.crate, replace(edit, goal=None), self.edits.index(edit))
            return True
        elif names & told.lost and names == edit.functions and not tried.is_emptied and not edit.is_harmless:
            self.lost.append(edit)
        elif names & told.waiting.keys() and len(tried.names) > 1:
            self.wait(edit, names, tried, told)
            return True
        elif tried.is_emptied and not edit.is_harmless:
            self.whole.add(edit)
            return True
        else:
            self.alone.append((edit, "a round does not refuse it"))
        return False

    def wait(self, edit, names, tried, told):
        """Keeps what an edit waits for, and whether that is a function without a body."""
        waits = set().union(*(found_below(it, told.waiting) for it in names))
        for name in edit.functions:
            self.stands_on.setdefault(name, set()).update(waits)
        if waits & {"::".join([self.crate.name, *path]) for path in tried.empty}:
            self.whole.add(edit)

    def take_control(self, edit, is_shown):
        """Takes a control of which one goal was tried: it has to be shown, and the whole crate has to be proved."""
        if is_shown:
            self.alone.append((edit, "a round does not refuse it"))
        else:
            self.refused[edit] = "its goal is not shown"

    def stands(self, kept):
        """Whether the functions that the edits name are proved as they stand."""
        functions = set().union(*(edit.functions for edit in self.edits))
        return self.is_proved or check({self.crate: Round()}, functions, kept).returncode == 0

    def ends(self):
        """(edit, whether all is well, why) of each edit."""
        with tempfile.TemporaryDirectory(prefix="edits-kept-") as kept:
            take_what_is_proved(self.crate, kept)
            if self.stands(kept):
                self.run_rounds(kept)
            else:
                self.say("a function that an edit names is not proved as it stands, so each edit is tried alone")
                self.alone = [(edit, "") for edit in self.edits]
        for edit, why in self.alone:
            self.say(f"{edit.name} is tried alone: {why}")
            is_refused, why = judge_alone(self.crate, edit)
            yield self.end(edit, is_refused, why)
        for edit, why in self.refused.items():
            yield self.end(edit, True, why)
        for edit in self.lost:
            yield self.end(edit, False, LOST)

    def unspoiled_ends(self):
        """(edit, whether the copies of its functions as they stand are proved in the crate without other bodies, and not refused
        next to edits in place, why not) of each edit by copies."""
        if not self.edits:
            return
        _, told, why = self.opened or self.judge(self.edits, None)
        beside, cause = self.placed or self.judge_placing()
        for edit in self.edits:
            said = why or cause or self.doubt(edit, told, beside)
            yield edit, said is None, said or "proved as it stands"

    def judge_placing(self):
        """What is told of the copies as they stand next to edits in place, where there are some."""
        return judge_rounds({self.crate: self.placing()})[self.crate] if self.in_place else (Told(), None)

    def doubt(self, edit, told, beside):
        """Why a copy of an edit's functions as they stand is not proved, or is refused next to edits in place; or None."""
        for name in sorted(it.path for it in self.copies[edit]):
            if name in told.not_proved():
                return f"{name}: {told.refused.get(name, 'its proof lost a name, or it waits')}"
            if name in beside.refused:
                return f"{name}, next to edits in place: {beside.refused[name]}"
        return None

    def end(self, edit, is_refused, why):
        """How an edit ends: a control well where it is not refused, any other where it is."""
        if edit.is_harmless:
            is_well = not is_refused and why.startswith("NOT REFUSED")
            return edit, is_well, f"control, {'not refused, as it must be' if is_well else 'TAKEN FOR WRONG'}: {why}"
        return edit, is_refused, f"{'refused' if is_refused else 'FAILED'}: {why}"

    def cost(self):
        """What its checks took."""
        cost = CHECKS.cost_of(self.crate)
        return f"{len(self.edits)} edits took {cost.seconds:.0f} s of processors in {cost.checks} checks; longest: {cost.longest()}"
