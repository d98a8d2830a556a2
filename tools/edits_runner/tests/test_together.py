"""Trials of the edits of several crates, with a made-up prover."""

from subprocess import CompletedProcess
from unittest.mock import patch

from .. import judging, toolchain, trial
from ..edit_files import edits_of
from ..together import run_together
from ..trial import Trial
from .made_up import Crate, InAFolder


class Together(InAFolder):
    """Crates `a` to `d`, each with a function `add` and two edits of it, and what checks are asked for: their crates."""

    def setUp(self):
        super().setUp()
        self.asked, self.said, self.goals = [], [], {}
        for name in ("cannot_be_read", "has_stale_library"):
            made = patch.object(toolchain, name, lambda *given: False)
            made.start()
            self.addCleanup(made.stop)

    def trials(self, names):
        for name in names:
            self.lay(f"{name}/src/lib.rt", "fn add(one: u64, other: u64) -> u64 {\n    one + other\n}\n")
            goal = f"goal: {self.goals[name]} c\n" if name in self.goals else ""
            self.lay(f"{name}/edits/a_sum.edit", f"of: add\n{goal}file: src/lib.rt\nold: one + other\nnew: one\n")
            self.lay(f"{name}/edits/b_sum.edit", "of: add\nfile: src/lib.rt\nold: one + other\nnew: other\n")
            crate = Crate(name, f"{self.room}/{name}")
            yield Trial(crate, edits_of(crate, [])[0], True, self.said.append)

    def ends(self, names, breaks_off=frozenset()):
        """How the edits of these crates end, where a check of one of those crates with others breaks off."""

        def check(rounds, functions=(), kept=None):
            self.asked.append("".join(sorted(it.name for it in rounds)))
            if len(rounds) > 1 and not breaks_off.isdisjoint(it.name for it in rounds):
                return CompletedProcess([], 2, "killed")
            lines = [f"fn {it}: not proved: `search` did not prove `returns`" for it in sorted(functions)]
            return CompletedProcess([], 1, "\n".join([*lines, f"only={len(lines)} proved=0"]))

        with patch.object(judging, "check", check), patch.object(trial, "check", check):
            trials = [*self.trials(names)]
            run_together(trials)
            return [is_well for it in trials for _, is_well, _ in it.ends()]

    def test_one_check_tells_of_all(self):
        self.assertEqual(self.ends("abc"), [True] * 6)
        self.assertEqual(self.asked, ["abc"])

    def test_a_check_that_is_not_believed_is_parted(self):
        self.assertEqual(self.ends("abcd", {"d"}), [True] * 8)
        self.assertEqual(self.asked, ["abcd", "ab", "cd", "c", "d"])

    def test_what_is_left_of_several_goes_together_too(self):
        self.goals = {"a": "rises", "c": "rises"}
        self.assertEqual(self.ends("abc"), [True] * 6)
        self.assertEqual(self.asked, ["abc", "ac"])
        self.assertEqual(sum("is tried with all goals" in it for it in self.said), 2)
