"""Whether a day is of the tables whose dates its weeks are to be given.

What the tables fix of a day by themselves is compared: which items, weeks and work centres it has, the weeks of firm orders,
open receipts, forecasts, service rows and calls, and the capacities. What is planned from them, `mrp check` looks at.
"""

from operator import itemgetter

from .sections import HISTORY, columns
from .tables import NotOfTheseTables


def agreeing(part, rows, tables):
    """Hands on the rows of a section, up to one that contradicts the tables: that is refused."""
    look = LOOKS.get(part.name)
    return look(part, rows, tables) if look else rows


def contradiction(part, number, heads, found, wanted):
    """How a row of a section, by its line, is another than the tables have it."""

    def told(cells):
        return ", ".join(f"{head} {cell}" for head, cell in zip(heads, cells) if cell) if cells else "none"

    return NotOfTheseTables(f"line {number}, [{part.name}]: {told(found)}; they have {told(wanted)}")


def compared(part, rows, heads, expected, is_told=lambda row: True):
    """Hands on rows; of those that the tables tell the cells under some heads are what is expected, in its order."""
    picked, expected, number = picker(part, heads), iter(expected), part.line
    for number, row in enumerate(rows, start=part.line + 1):
        if is_told(row):
            wanted = next(expected, None)
            if picked(row) != wanted:
                raise contradiction(part, number, heads, picked(row), wanted)
        yield row
    wanted = next(expected, None)
    if wanted is not None:
        raise contradiction(part, number + 1, heads, None, wanted)


def picker(part, heads):
    """Picks the cells under some heads of a row."""
    return itemgetter(*(columns(part.name).index(head) for head in heads))


def look_at_history(part, rows, tables):
    """Each desk's calls are those of its records, in their order. Bookings may have come to the script since."""
    heads = ("call", "item", "week", "quantity", "number")
    picked, desk_of = picker(part, heads), itemgetter(columns(HISTORY).index("desk"))
    # (a `run` has no week, and one at the end may have been added)
    left = {str(desk): (call for call in calls if call[0] != "run") for desk, calls in tables.calls.items()}
    for number, row in enumerate(rows, start=part.line + 1):
        found = picked(row)
        if found[0] != "run":
            wanted = next(left.get(desk_of(row), iter(())), None)
            if found != wanted:
                raise contradiction(part, number, heads, found, wanted)
        yield row


def look_at_promises(part, rows, tables):
    weeks = range(1, tables.calendar.weeks + 1)
    masters = (item for item, is_master in tables.items.items() if is_master)
    expected = ((item, str(week), str(tables.scheduled.get((item, week), 0))) for item in masters for week in weeks)
    return compared(part, rows, ("item", "week", "firm"), expected)


def look_at_plan(part, rows, tables):
    def expected():
        for item, is_master in tables.items.items():
            for week in range(1, tables.calendar.weeks + 1):
                pieces = str(tables.scheduled.get((item, week), 0))
                yield (item, str(week), "0", pieces) if is_master else (item, str(week), pieces, "0")

    return compared(part, rows, ("item", "week", "open", "firm"), expected())


def look_at_orders(part, rows, tables):
    orders = ((item, week, pieces) for item, firm in tables.firm.items() for week, pieces in sorted(firm, key=itemgetter(0)))
    expected = ((item, "firm", str(week), str(pieces)) for item, week, pieces in orders)
    kind = columns(part.name).index("kind")
    return compared(part, rows, ("item", "kind", "due", "quantity"), expected, lambda row: row[kind] == "firm")


def look_at_pegs(part, rows, tables):
    """Forecasts and service rows are due in the weeks of the tables."""
    heads = ("need", "item", "week", "number")
    picked = picker(part, heads)
    for line, row in enumerate(rows, start=part.line + 1):
        need, item, week, number = found = picked(row)
        if need == "forecast" and (item, week) not in tables.forecasts:
            raise contradiction(part, line, heads, found, None)
        if need == "service" and tables.services.get(number) != (item, week):
            due = tables.services.get(number)
            raise contradiction(part, line, heads, found, due and (need, *due, number))
        yield row


def look_at_loads(part, rows, tables):
    days = tables.calendar.shop_days()
    expected = (
        (centre, str(week), f"{minutes * shop_days}.000")
        for centre, minutes in tables.centres
        for week, shop_days in enumerate(days, start=1)
    )
    return compared(part, rows, ("centre", "week", "capacity"), expected)


LOOKS = {
    HISTORY: look_at_history,
    "promises": look_at_promises,
    "plan": look_at_plan,
    "orders": look_at_orders,
    "pegs": look_at_pegs,
    "loads": look_at_loads,
}
