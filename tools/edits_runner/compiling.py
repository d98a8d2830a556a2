"""Which edits do not compile: a check without proofs, in seconds, since one that does not fails the gate as one not refused does."""

from .checks import check
from .copies import copies_of
from .rounds import empty_round, not_in_the_way, round_of

# What names no function: the check ends where proofs would begin.
NO_FUNCTION = frozenset({""})


def next_round(crate, left, copies):
    """Of these edits all by copies, and as many in place as go together."""
    return [it for it in left if it in copies] + not_in_the_way(crate, [it for it in left if it not in copies], {})


def errors_in(crate, edits, copies):
    """What the compiler's front says against the text with these edits, and against which of them it is."""
    tried = empty_round(crate, round_of(crate, edits, copies))
    ran = check({crate: tried}, NO_FUNCTION)
    errors = [line for line in ran.stdout.splitlines() if ": error" in line]
    if not errors and ran.returncode != 0:
        errors = ran.stdout.splitlines()[-1:] or [f"status {ran.returncode}"]
    plain = [line.replace(f"{crate.name}/src/", "src/") for line in errors]
    return plain, tried.in_error(plain)


def do_not_compile(crate, edits):
    """(edit, why) of each edit of a crate whose text the compiler's front does not take."""
    made = {edit: copies_of(crate, edit, number) for number, edit in enumerate(edits)}
    copies, left = {edit: it for edit, it in made.items() if it}, [[*edits]]
    while left:
        part = left.pop()
        now = next_round(crate, part, copies)
        errors, wrong = errors_in(crate, now, copies)
        if errors and len(now) == 1:
            wrong = now
        yield from ((edit, errors[0]) for edit in wrong)
        rest = [edit for edit in part if edit not in (wrong if errors else now)]
        if errors and not wrong:
            left += [now[: len(now) // 2], now[len(now) // 2 :], [edit for edit in rest if edit not in now]]
        else:
            left.append(rest)
        left = [it for it in left if it]
