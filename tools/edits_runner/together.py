"""Which crates' edits are tried in one check, and in what order, as the crates come."""

import threading

from .edit_files import edits_of
from .judging import judge_rounds
from .trial import Trial
from .turns import waits

# So many edits are worth a check, and crates with fewer wait for others; so many are the most, unless one crate has more.
TOGETHER, MOST_TOGETHER = 50, 100


def edits_now(crate, words, turn):
    """The edits of a crate whose names have one of these words, or all without words: those that are tried in this turn, how
    many wait for others, and (name, why) of each that is bad."""
    good, bad = edits_of(crate, words)
    now = [edit for edit in good if not waits(crate, edit, turn)]
    return now, len(good) - len(now), bad


def go_together(crates):
    """Whether one check can take these. No crate that is built may stand on one of them and below another: that one would be
    there twice, in source and below the built one."""
    built = {it for crate in crates for it in crate.below() if it not in crates}
    return not any(it in crates for other in built for it in other.below())


class Waiting:
    """Crates whose edits wait, in the order in which they came."""

    def __init__(self, words, turn=None):
        self.crates, self.has_ended, self.changed = [], False, threading.Condition()
        self.words, self.turn, self.counts = words, turn, {}

    def add(self, crate):
        now, _, _ = edits_now(crate, self.words, self.turn)
        with self.changed:
            self.crates.append(crate)
            self.counts[crate] = len(now)
            self.changed.notify_all()

    def end(self):
        with self.changed:
            self.has_ended = True
            self.changed.notify_all()

    def take(self):
        """Crates whose edits are tried together, which wait no more; none at the end."""
        with self.changed:
            while not (found := self.together()) and not self.has_ended:
                self.changed.wait()
            self.crates = [it for it in self.crates if it not in found]
            return found

    def together(self):
        """Those from the first on that go together, until they have enough edits; none while there may come more."""
        found, edits = [], 0
        for crate in self.crates:
            more = self.counts[crate]
            if not found or edits + more <= MOST_TOGETHER and go_together([*found, crate]):
                found.append(crate)
                edits += more
            if edits >= TOGETHER:
                return found
        return found if self.has_ended or len(found) < len(self.crates) else []


# ---- crates whose edits are tried together

def trial_of(crate, given, report, building):
    """A trial of the crate's edits, once what stands below it is built, or None where there is nothing to try."""
    edits, left, bad = edits_now(crate, given.words, given.turn)
    report.leave(left)
    for name, why in bad:
        report.end(crate, name, False, f"BAD EDIT: {why}")
    if not edits:
        return None
    lost = []
    if not given.as_proved:
        with building:
            lost = [it.name for it in crate.below() if it.build_rlib(["--jobs", "1"], anew=False)]
    if lost:
        report.fail_all(crate, len(edits), f"{lost[0]} is not proved")
        return None
    is_proved = given.as_proved or not crate.is_program and crate.is_built()
    return Trial(crate, edits, is_proved, lambda text: report.say(f"{crate.name}: {text}"), not given.unspoiled)


def judge_openings(trials):
    """The next rounds of these crates and what one check of them told, each with its trial; none where it is not believed."""
    rounds = {trial.crate: trial.opening() for trial in trials}
    judged = judge_rounds(rounds)
    for trial in trials:
        told, why = judged[trial.crate]
        if told:
            yield trial, rounds[trial.crate], told
        else:
            trial.say(f"its edits are tried without those of {len(trials) - 1} crates next to them: {why}")


def open_together(trials):
    """Tries the copies of these crates as they stand in one check."""
    for trial, tried, told in judge_openings(trials):
        trial.opened = tried, told, None


def run_together(trials):
    """Tries the next rounds of these crates in one check, and so on with those of which something is left for one. Where a check is
    not believed, each half of its crates is tried so."""
    if len(trials) < 2 or not go_together([it.crate for it in trials]):
        return
    believed = [*judge_openings(trials)]
    for trial, tried, told in believed:
        trial.take_opened(tried, told)
    if believed:
        run_together([it for it in trials if it.opens()])
    else:
        run_together(trials[: len(trials) // 2])
        run_together(trials[len(trials) // 2 :])


def place_together(trials):
    """Tries the copies of these crates as they stand next to the edits in place of all of them, in one check."""
    judged = judge_rounds({trial.crate: trial.placing() for trial in trials})
    for trial in trials:
        told, why = judged[trial.crate]
        trial.placed = (told, why) if told else None


def try_together(crates, given, report, building):
    """Tries the edits of these crates, their rounds in one check as far as that can be."""
    trials = [trial for trial in (trial_of(crate, given, report, building) for crate in crates) if trial]
    if len(trials) > 1 and all(it.is_proved and it.edits for it in trials) and go_together([it.crate for it in trials]):
        if not given.unspoiled:
            run_together(trials)
        else:
            open_together(trials)
            if any(it.in_place for it in trials):
                place_together(trials)
    for trial in trials:
        for edit, is_well, why in trial.unspoiled_ends() if given.unspoiled else trial.ends():
            report.controls += edit.is_harmless
            report.end(trial.crate, edit.name, is_well, why[:240])
        report.say(f"{trial.crate.name}: {trial.cost()}")
