"""What a site's day comes to: the counts of its line on the company's page."""

from array import array
from dataclasses import dataclass

from export_day.day import parts_of_run, read_parts, rows_of
from export_day.weeks import number_in


@dataclass
class Summary:
    """Counts of the last run of a day.

    unpromised   bookings that were answered short
    at_risk      bookings that wait, through any number of orders, for an order past due
    past_due     orders past due
    overloads    weeks of work centres over capacity
    late_supply  weeks of supplied items whose forecast waits for an order past due
    early        releases of other sites that had to be shipped before week 1
    beyond       those behind the horizon, which are in no forecast
    """

    unpromised: int = 0
    at_risk: int = 0
    past_due: int = 0
    overloads: int = 0
    late_supply: int = 0
    early: int = 0
    beyond: int = 0


def last_run(held):
    """The rows of a day's history and of its last run, by section: a function that reads those of one."""
    parts = {part.name: part for part in parts_of_run(read_parts(held), None)}
    return lambda section: rows_of(held, parts[section])


def summary_of(rows, shipments, supplied):
    """The counts of a day's last run, and of what the site ships to others."""
    told = Summary(
        unpromised=sum(row[7] == "short" for row in rows("history")),
        past_due=sum(row[3] == "PAST-DUE" for row in rows("messages")),
        overloads=sum(row[4] != "0.000" for row in rows("loads")),
        early=sum(it.note.startswith("early") for it in shipments),
        beyond=sum(it.note == "beyond" for it in shipments),
    )
    late = late_orders(rows("orders"))
    if any(late.values()):
        needs = waiting_needs(rows("pegs"), late)
        told.at_risk = len({need for need in needs if need[0] == "booking"})
        told.late_supply = len({need for need in needs if need[0] == "forecast" and need[1] in supplied})
    return told


def late_orders(rows):
    """Whether each order is past due, by item and number."""
    return {(item, order): number_in(late) > 0 for item, order, *_, late in rows}


def waiting_needs(pegs, late):
    """The bookings and forecasts that wait for a late order: the kind, the item, and the booking's number or the week."""
    place = {order: number for number, order in enumerate(late)}
    below, above, needs = array("q"), array("q"), []
    for item, week, need, number, parent, _, supply, source, _ in pegs:
        order = place.get((item, source)) if supply in ("firm", "planned") else None
        if order is None:
            continue
        if need == "parent":
            below.append(order)
            above.append(place[parent, number])
        elif need in ("booking", "forecast"):
            needs.append((order, (need, item, number or week)))
    marks = spread(bytearray(late.values()), below, above)
    return [need for order, need in needs if marks[order]]


def spread(marks, below, above):
    """Marks each order above a marked one, until there is none."""
    grew = True
    while grew:
        grew = False
        for supply, order in zip(below, above):
            if marks[supply] and not marks[order]:
                marks[order] = grew = True
    return marks
