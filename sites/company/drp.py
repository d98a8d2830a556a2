"""Distribution requirements planning: what sites release of their bought items is forecast of their suppliers (docs/SITES.md)."""

import csv
import datetime
import io
from dataclasses import dataclass

from export_day.weeks import WEEK, number_in
from whole_files import Refused

from .tables import text_of

RELEASES = ("item", "order", "date", "start", "late")
LIST = ("site", "item", "order", "release", "start", "supplier_item", "ship", "week", "note")
MASTER = ("item", "row", "date", "quantity")
# Of one cell of a table, and of one master schedule.
MOST_PIECES, MOST_RECORDS = 10**9, 100_000


@dataclass(frozen=True)
class Release:
    """A planned order of a bought item: its number, the Monday of the week in which it is released, the pieces that start, and how
    late it is."""

    item: str
    order: str
    date: datetime.date
    start: int
    late: str

    def row(self):
        return (self.item, self.order, self.date.isoformat(), str(self.start), self.late)


def releases_in(orders, items, calendar):
    """What the rows of a day's section `orders` release of bought items: planned orders alone, since others were placed before."""
    found = []
    for item, order, kind, _, _, start, release, late in orders:
        if kind == "planned" and item in items and number_in(start):
            found.append(Release(item, order, calendar.start + (int(release) - 1) * WEEK, number_in(start), late))
    return found


def releases_text(releases):
    return text_of([RELEASES, *(release.row() for release in releases)])


def read_releases(path):
    """The releases of a site, as they were written."""
    with open(path, "rb") as held:
        rows = list(csv.reader(io.StringIO(held.read().decode("latin-1"), newline="")))
    return [Release(row[0], row[1], datetime.date.fromisoformat(row[2]), int(row[3]), row[4]) for row in rows[1:]]


@dataclass(frozen=True)
class Shipment:
    """A release as its supplier sees it: when it has to be shipped, in which week of the supplier, or in none, and what is odd."""

    site: str
    release: Release
    item: str
    date: datetime.date
    week: int | None
    note: str

    def row(self):
        of = self.release
        told = (self.item, self.date.isoformat(), self.week or "", self.note)
        return (self.site, of.item, of.order, of.date.isoformat(), of.start, *told)


def shipment(link, release, calendar):
    """A release less the transit. Before the supplier's week 1 it counts in week 1, behind its last week nowhere."""
    date = release.date - link.transit * WEEK
    week = (date - calendar.start) // WEEK + 1
    if week > calendar.weeks:
        return Shipment(link.site, release, link.supplier_item, date, None, "beyond")
    note = f"early {1 - week}" if week < 1 else ""
    return Shipment(link.site, release, link.supplier_item, date, max(week, 1), note)


def shipments(sells, releases_of, calendar):
    """All that the links of a supplier make it ship, in the order of the links, then of the releases."""
    return [
        shipment(link, release, calendar)
        for link in sells
        for release in releases_of(link.site)
        if release.item == link.item
    ]


def shipments_text(found):
    return text_of([LIST, *(it.row() for it in found)])


def forecast_rows(found, classes, calendar):
    """The forecast rows of shipments: one for each item and week, several where its pieces are too many for one."""
    wanted = {}
    for it in found:
        if it.week:
            wanted[it.item, it.week] = wanted.get((it.item, it.week), 0) + it.release.start
    if sum(-(-pieces // MOST_PIECES) for pieces in wanted.values()) > MOST_RECORDS:
        raise Refused(f"master.csv: more than {MOST_RECORDS} rows, with those for other sites")
    place = {item: number for number, item in enumerate(classes)}
    for (item, week), pieces in sorted(wanted.items(), key=lambda it: (place[it[0][0]], it[0][1])):
        date = (calendar.start + (week - 1) * WEEK).isoformat()
        for done in range(0, pieces, MOST_PIECES):
            yield (item, "forecast", date, str(min(MOST_PIECES, pieces - done)))


def own_rows(records, sells):
    """The site's own rows. A forecast row that is replaced has no pieces, so that the others keep their numbers."""
    replaced = {link.supplier_item for link in sells if link.replaces}
    for record in records:
        cells = record.cells
        is_replaced = len(cells) == 4 and cells[1] == "forecast" and cells[0] in replaced
        yield (*cells[:3], "0") if is_replaced else cells


def master_text(tables, sells, found):
    """The master schedule of a supplier: its own rows, and behind them the forecast for other sites. Refused where its tables can't
    be read, or hold too many rows."""
    tables.look("master", "items", "script")
    records, classes = tables.records("master"), tables.classes()
    strange = [link.supplier_item for link in sells if classes.get(link.supplier_item) != "master"]
    if strange:
        raise Refused(f"items.csv: {strange[0]} is no master item, and other sites buy it")
    own, made = list(own_rows(records, sells)), list(forecast_rows(found, classes, tables.calendar()))
    if len(own) + len(made) > MOST_RECORDS:
        raise Refused(f"master.csv: more than {MOST_RECORDS} rows, with those for other sites")
    return text_of([MASTER, *own, *made])
