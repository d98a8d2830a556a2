"""The links between sites: who buys what from whom; what is wrong with them; in which order sites are planned."""

import csv
from dataclasses import dataclass

from .tables import records_in

COLUMNS = "site,item,supplier,supplier_item,transit_weeks,mode"
MODES = ("add", "replace")
MOST_TRANSIT = 104


@dataclass(frozen=True)
class Link:
    """A site's item is bought from an item of a supplier, another site. `replaces` says that the supplier's own forecast of the
    item does not count. `line` is where the link stands."""

    line: int
    site: str
    item: str
    supplier: str
    supplier_item: str
    transit: int
    replaces: bool


def read_links(data):
    """The links of `links.csv`, and what is wrong with its records, a line for each fault."""
    try:
        records = records_in(data)
    except csv.Error as wrong:
        return [], [f"links.csv: {wrong}"]
    if not records or ",".join(records[0].cells) != COLUMNS:
        return [], [f"links.csv:1: expected the header {COLUMNS}"]
    links, faults = [], []
    for record in records[1:]:
        fault = fault_of(record.cells)
        if fault:
            faults.append(f"links.csv:{record.line}: {fault}")
        else:
            site, item, supplier, supplier_item, transit, mode = record.cells
            links.append(Link(record.line, site, item, supplier, supplier_item, int(transit), mode == "replace"))
    return links, faults + faults_between(links)


def fault_of(cells):
    """What is wrong with the cells of a record by themselves, or None."""
    if len(cells) != 6:
        return f"{len(cells)} cells; expected 6"
    transit, mode = cells[4:]
    if not (transit.isascii() and transit.isdigit() and len(transit) <= 9 and int(transit) <= MOST_TRANSIT):
        return f"transit_weeks: '{transit}'; expected a number from 0 to {MOST_TRANSIT}"
    return None if mode in MODES else f"mode: '{mode}'; expected add or replace"


def faults_between(links):
    """What is wrong with links beside one another: an item that is bought twice, or one that is sold in both modes."""
    bought, sold, faults = {}, {}, []
    for link in links:
        first = bought.setdefault((link.site, link.item), link)
        if first is not link:
            faults.append(f"links.csv:{link.line}: {link.item} of {link.site} is bought twice; line {first.line} has it too")
        first = sold.setdefault((link.supplier, link.supplier_item), link)
        if first.replaces != link.replaces:
            faults.append(
                f"links.csv:{link.line}: {link.supplier_item} of {link.supplier} is both add and replace; see line {first.line}"
            )
    return faults


def unknown_sites(links, sites):
    """A line for each link that names a site without a folder."""
    known = set(sites)
    return [
        f"links.csv:{link.line}: there is no folder sites/{name}"
        for link in links
        for name in dict.fromkeys((link.site, link.supplier))
        if name not in known
    ]


def faults_at(site, tables, buys, sells):
    """What is wrong with a site's links beside its tables. A table that can't be read tells nothing: the site itself is refused, when
    it is planned."""
    classes = tables.classes()
    if classes is None:
        return []
    bills, script = tables.records("bills") or [], tables.records("script") or []
    made = {record.cells[0]: record.line for record in reversed(bills)}
    booked = {record.cells[2]: record.line for record in reversed(script) if record.cells[1:2] == ["book"] and record.cells[2:]}
    faults = [bought_fault(site, link, classes, made) for link in buys]
    faults += [sold_fault(site, link, classes, booked) for link in sells]
    return [fault for fault in faults if fault]


def bought_fault(site, link, classes, made):
    if link.item not in classes:
        return f"links.csv:{link.line}: {link.item} is not in sites/{site}/items.csv"
    if link.item in made:
        return f"links.csv:{link.line}: {link.item} is made at {site}: sites/{site}/bills.csv:{made[link.item]} has it as parent"
    return None


def sold_fault(site, link, classes, booked):
    item = link.supplier_item
    if item not in classes:
        return f"links.csv:{link.line}: {item} is not in sites/{site}/items.csv"
    if classes[item] != "master":
        return f"links.csv:{link.line}: {item} is no master item of {site}"
    if item in booked:
        # (a week requires the greater of forecast and bookings, so a booking would take what another site asks for)
        return f"links.csv:{link.line}: {item} is booked at {site}: sites/{site}/script.csv:{booked[item]}"
    return None


def by_site(links, name):
    """Links by the site that they have under a name, `site` or `supplier`."""
    found = {}
    for link in links:
        found.setdefault(getattr(link, name), []).append(link)
    return found


class Loop(Exception):
    """Sites buy from one another in a circle: the links of it."""

    def __init__(self, links):
        way = [f"{link.site} buys from {link.supplier} (line {link.line})" for link in links]
        super().__init__(f"links.csv:{links[0].line}: a loop: {', '.join(way)}")


def tiers(sites, links):
    """The tier of each site: 0 where nobody buys from it, else one more than the greatest of those that do. Raises Loop."""
    sells, buys = by_site(links, "supplier"), by_site(links, "site")
    waits_for = {site: {link.site for link in sells.get(site, ())} for site in sites}
    free, tier = [site for site in sites if not waits_for[site]], {}
    while free:
        site = free.pop()
        tier[site] = max((tier[link.site] + 1 for link in sells.get(site, ())), default=0)
        for supplier in {link.supplier for link in buys.get(site, ())}:
            waits_for[supplier].discard(site)
            if not waits_for[supplier]:
                free.append(supplier)
    if len(tier) < len(waits_for):
        raise Loop(loop_among([site for site in sites if site not in tier], sells))
    return tier


def loop_among(sites, sells):
    """The links of a loop, among sites of which each has a buyer among them."""
    left, site, way = set(sites), sites[0], []
    while site not in [link.supplier for link in way]:
        way.append(next(link for link in sells[site] if link.site in left))
        site = way[-1].site
    begin = [link.supplier for link in way].index(site)
    return way[begin:][::-1]
