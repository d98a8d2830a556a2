"""What is believed of a check: what it tells of a round's edits, or why it is not believed (the package says when, and why)."""

import re

from . import toolchain
from .checks import check
from .edit_files import laid_on
from .rounds import Round
from .verdicts import DECLARATION, FUNCTION, is_fine, joined, lines_of, told_by

LOST = "a proof names what it took away, which says nothing of its contract"


def judge_rounds(rounds, kept=None):
    """What a check of these crates told of each of them: (told, None), or (None, why it is not believed), of all or of none."""
    ran = check(rounds, frozenset().union(*(it.functions() for it in rounds.values())), kept)
    empty = frozenset("::".join([crate.name, *path]) for crate, tried in rounds.items() for path in tried.empty)
    judged = {crate: judge_round(crate, tried, ran, empty) for crate, tried in rounds.items()}
    doubt = next((why for told, why in judged.values() if why), None) or beyond(rounds, ran)
    return {crate: (None, doubt) for crate in judged} if doubt else judged


def beyond(crates, ran):
    """What a check says of what is refused and is of none of its crates, or None."""
    for line in joined(ran.stdout):
        told = DECLARATION.match(line) or FUNCTION.match(line)
        name, said = told.groups()[-2:] if told else ("", "")
        if told and not is_fine(said) and not any(name.startswith(f"{it.name}::") for it in crates):
            return f"refused, and of no crate that is tried: {line[:200]}"
    return None


def judge_round(crate, tried, ran, empty):
    """What a check told of one of its crates, where these functions have no bodies: (told, None) or (None, why not)."""
    functions, lines = tried.functions(), lines_of(crate, ran.stdout)
    why = unreadable(lines, tried.texts, ran.stdout)
    if why:
        return None, why
    end = re.fullmatch(r"only=(\d+) (proved|holes)=(\d+)", lines[-1])
    if ran.returncode not in (0, 1) or not end:
        tried.errors = [line for line in lines if ": error" in line] or lines[-1:]
        return None, f"the check did not come to its end: {tried.errors[0][:200]}"
    told = told_by(crate, lines, functions, empty, tried.goals())
    tried.settle(told)
    lost = functions - told.seen
    if lost:
        return None, f"nothing was told of {min(lost)}"
    others = [it for it in told.refused if it not in functions] + told.others
    if others:
        return None, f"refused, and not named by any edit: {others[0][:200]}"
    return told, None


def unreadable(lines, texts, stdout):
    """Why what a check says is of no contract: the prover could not read a text, or what it keeps of a library."""
    bad = next((line for line in lines if toolchain.cannot_be_read(line, texts)), None)
    if bad:
        return f"the prover cannot read it: {bad[:200]}"
    return "kept work of a library could not be used" if toolchain.has_stale_library(stdout) else None


def judge_alone(crate, edit):
    """(whether the whole crate is refused with this edit for a function that it names, why or why not)."""
    texts = laid_on(crate, [edit])
    if texts is None:
        return False, "an 'old:' text does not stand exactly once in its file"
    ran = check({crate: Round({edit: edit.functions}, texts)})
    lines = lines_of(crate, ran.stdout)
    why = unreadable(lines, texts, ran.stdout)
    if why:
        return False, why
    if ran.returncode == 0:
        return False, "NOT REFUSED: the crate is still proved with it"
    if ran.returncode != 1 or not lines[-1].startswith("logic=not-proved"):
        errors = [line for line in lines if ": error" in line] or lines[-1:]
        return False, f"no contract was tried: {errors[0][:200]}"
    return refusal_of(edit, told_by(crate, lines, edit.functions))


def refusal_of(edit, told):
    """(whether what a check of the whole crate told refuses an edit for a function that it names, why or why not)."""
    found = sorted(edit.functions & {*told.refused})
    if found:
        return True, told.refused[found[0]]
    if edit.functions & told.lost:
        return False, LOST
    others = sorted(told.refused) or told.others or ["nothing was told of why"]
    return False, f"no function that it names refuses it for a reason of its own, but: {others[0][:200]}"
