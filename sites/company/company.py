"""A company: its sites, their links and tables, and what is wrong with them."""

import concurrent.futures
import os
import re
from dataclasses import dataclass, field

from .links import Loop, by_site, faults_at, read_links, tiers, unknown_sites
from .site import Site
from .tables import Tables

# A site's name is that of its folder.
NAME = re.compile(r"[A-Za-z0-9_][A-Za-z0-9_. -]{0,63}")
READERS = 8


@dataclass
class Company:
    """The sites by their names, what tells the tables of each, and its tier; or why nothing is planned, a line for each fault."""

    names: list
    sites: dict = field(default_factory=dict)
    sums: dict = field(default_factory=dict)
    tier: dict = field(default_factory=dict)
    faults: list = field(default_factory=list)


def site_names(folder):
    """The folders in `sites`; those whose names begin with a point are none."""
    found = os.scandir(os.path.join(folder, "sites"))
    return sorted(entry.name for entry in found if entry.is_dir() and not entry.name.startswith("."))


def read_company(folder):
    """Reads the links and looks at all tables. Raises OSError where there is no `links.csv` or no folder `sites`."""
    company = Company(site_names(folder))
    with open(os.path.join(folder, "links.csv"), "rb") as held:
        links, company.faults = read_links(held.read())
    strange = [name for name in company.names if not NAME.fullmatch(name)]
    company.faults += [f"sites/{name}: expected a name of letters, digits, spaces, '.', '_' and '-', at most 64" for name in strange]
    company.faults += unknown_sites(links, company.names)
    if company.faults:
        return company
    try:
        company.tier = tiers(company.names, links)
    except Loop as loop:
        company.faults.append(str(loop))
        return company
    look_at_tables(folder, company, links)
    return company


def look_at_tables(folder, company, links):
    """Adds the sites with what tells their tables, and what is wrong with the links beside them."""
    buys, sells = by_site(links, "site"), by_site(links, "supplier")

    def look(name):
        tables, own = Tables.read(os.path.join(folder, "sites", name)), (buys.get(name, []), sells.get(name, []))
        return tables.sum(), faults_at(name, tables, *own) if any(own) else []

    with concurrent.futures.ThreadPoolExecutor(READERS) as pool:
        for name, (told, faults) in zip(company.names, pool.map(look, company.names)):
            company.sites[name] = Site(name, sorted(link.item for link in buys.get(name, ())), sells.get(name, []))
            company.sums[name] = told
            company.faults += faults
