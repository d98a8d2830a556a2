"""The company's page: how each site stands, what its plan comes to, and where its page is."""

import datetime
import html
import os
from urllib.parse import quote

from .batches import is_done
from .site import FAULTS, PLAN, read_line
from .states import State, Word, read_state, write_whole
from .style import STYLE

# How many sites that are not planned stand open, and how many stand before the others.
MOST_OPEN, MOST_FIRST = 20, 10
# The columns of counts: its name in line.json, its head, what it counts, and where it leads to in the site's plan.
COUNTS = (
    ("unpromised", "Not promised", "bookings answered short", "page.html#unkept"),
    ("at_risk", "At risk", "bookings that wait for an order past due", "page.html#risk"),
    ("past_due", "Past due", "orders past due", "page.html#late"),
    ("late_supply", "Late to sites", "weeks of supplied items that wait for an order past due", "page.html#late"),
    ("overloads", "Overloads", "weeks of work centres over capacity", "page.html#centres"),
    ("early", "Early", "releases of other sites to be shipped before week 1", "drp.csv"),
    ("beyond", "Beyond", "releases of other sites behind the horizon", "drp.csv"),
)
# Those by which sites stand before others.
RANKED = ("at_risk", "unpromised", "late_supply", "past_due")
CLASSES = {Word.PLANNED: "none", Word.REFUSED: "late", Word.STOPPED: "late", Word.WAITS: "in"}
HEADS = "".join(f'<th scope=col title="{what}">{head}</th>' for _, head, what, _ in COUNTS)
FIRST, LAST = "<th class=t scope=col>Site</th><th class=t scope=col>State</th>", "<th scope=col>Items</th><th scope=col>Planned (UTC)</th>"
TABLE = f"<thead><tr>{FIRST}{HEADS}{LAST}</tr></thead>"


def states_tonight(night, company, batches):
    """How each site stands at the end of a night, those that buy from others first."""
    batch_of = {site: name for name, members in batches.items() for site in members}
    done, found = {name: is_done(night, name) for name in batches}, {}
    for site in sorted(company.names, key=lambda name: (company.tier[name], name)):
        state = read_state(night.out, site)
        lost = [buyer for buyer in company.sites[site].buyers() if found[buyer].word != Word.PLANNED]
        if state and (done[batch_of[site]] or state.night == night.name) and state.word != Word.RUNNING:
            found[site] = state
        else:
            found[site] = unsettled(state and state.night == night.name, lost)
    return found


def unsettled(is_begun, lost):
    """How a site stands whose job did not come to it, or not to its end."""
    if lost and not is_begun:
        return State(Word.WAITS, ", ".join(lost))
    return State(Word.STOPPED, "its job was ended before its end" if is_begun else "its job did not run, or was ended before it")


def refused_states(company):
    """How the sites stand where the links are refused."""
    return {name: State(Word.STOPPED, "the links are refused") for name in company.names}


def causes(states):
    """For each site that waits the sites without which it would not, in the order of the tiers."""
    found = {}
    for site, state in states.items():
        if state.word == Word.WAITS:
            buyers = state.why.split(", ")
            found[site] = sorted({cause for buyer in buyers for cause in found.get(buyer, [buyer])})
    return found


def escape(text):
    return html.escape(text, quote=True)


def counts_of(folder, site):
    """The counts of a site's last good plan, and when it was made; or None where there is none."""
    out = os.path.join(folder, "out")
    told = read_line(out, site)
    if told:
        made = os.path.getmtime(os.path.join(out, site, PLAN, "line.json"))
        told["at"] = minute(datetime.datetime.fromtimestamp(made, datetime.timezone.utc))
    return told


def minute(moment):
    return f"{moment:%Y-%m-%d %H:%M}"


def site_name(site, has_plan):
    return f'<a href="{quote(site)}/{PLAN}/page.html">{escape(site)}</a>' if has_plan else escape(site)


def row_of(site, state, counts):
    """A site's row in a table."""
    look = "t" if state.word == Word.PLANNED else "t bad"
    cells = [f'<th scope=row>{site_name(site, counts)}</th><td class="{look}">{state.word}</td>']
    for name, _, _, place in COUNTS:
        count = (counts or {}).get(name, "")
        cells.append(f'<td><a href="{quote(site)}/{PLAN}/{place}">{count}</a></td>' if count else f"<td class=z>{count}</td>")
    return f"<tr>{''.join(cells)}<td>{(counts or {}).get('items', '')}</td><td>{(counts or {}).get('at', '')}</td></tr>"


def table_of(label, sites, states, counts):
    rows = "\n".join(row_of(site, states[site], counts[site]) for site in sites)
    table = f'<table class=list aria-label="{label}">{TABLE}\n<tbody>{rows}\n</tbody></table>'
    return f'<div class=scroll role=region tabindex=0 aria-label="{label}">{table}</div>'


def lost_line(folder, site, state, waiting, counts):
    """A site that is not planned: why, what waits for it, and its last good plan."""
    path = os.path.join(folder, "out", site, FAULTS)
    has_faults = state.word == Word.REFUSED and os.path.exists(path)
    faults = f' <a href="{quote(site)}/{FAULTS}">all faults</a>' if has_faults else ""
    waits = f"<br>{len(waiting)} {'waits' if len(waiting) == 1 else 'wait'} for it: {names_of(waiting)}" if waiting else ""
    last = f"; last good plan {counts['at']}" if counts else "; never planned"
    what = f"<b>{site_name(site, counts)}</b> {state.word}: {escape(state.why)}"
    return f'<li class="{CLASSES[state.word]}">{what}{faults}<small>{last}</small>{waits}</li>'


def names_of(sites):
    more = f" and {len(sites) - MOST_OPEN} more" if len(sites) > MOST_OPEN else ""
    return escape(", ".join(sites[:MOST_OPEN])) + more


def lost_section(folder, states, counts):
    """The sites that are not planned, each with those that wait for it."""
    waiting = {}
    for site, found in causes(states).items():
        for cause in found:
            waiting.setdefault(cause, []).append(site)
    lost = [site for site, state in states.items() if state.word in (Word.REFUSED, Word.STOPPED)]
    if not lost:
        return "<section id=lost>\n<h2>Not planned</h2>\n<p>None: each site is planned.</p>\n</section>"
    lines = [lost_line(folder, site, states[site], waiting.get(site), counts[site]) for site in lost]
    rest = "\n".join(lines[MOST_OPEN:])
    more = f"<summary>and {len(lost) - MOST_OPEN} more</summary><ul class=said>{rest}</ul>"
    fold = f"\n<details class=rest>{more}</details>" if rest else ""
    shown = "\n".join(lines[:MOST_OPEN])
    return f"<section id=lost>\n<h2>Not planned</h2>\n<ul class=said>{shown}</ul>{fold}\n</section>"


def first_section(states, counts):
    """The sites with the most promises at risk, where there are many sites."""
    rank = {site: [-told[name] for name in RANKED] for site, told in counts.items() if told}
    first = sorted((site for site in rank if any(rank[site])), key=lambda site: (rank[site], site))[:MOST_FIRST]
    if not first or len(states) <= MOST_FIRST:
        return ""
    note = "<p class=note>The sites with the most promises at risk, then not promised, late to other sites, past due.</p>"
    head = "Look at these first"
    return f"<section id=first>\n<h2>{head}</h2>\n{note}\n{table_of(head, first, states, counts)}\n</section>"


def tile(count, kind, place, what):
    return f'<a class="{kind if count else "none"}" href="#{place}"><b>{count}</b>{what}</a>'


def tiles(states, counts):
    """The counts of the company: sites by their states, and the sums of the plans."""
    words = [state.word for state in states.values()]
    shown = [tile(words.count(Word.PLANNED), "release", "sites", "planned")]
    told = ((Word.REFUSED, "refused"), (Word.STOPPED, "stopped"), (Word.WAITS, "wait for others"))
    shown += [tile(words.count(word), CLASSES[word], "lost", what) for word, what in told]
    for name, head, _, _ in COUNTS:
        total = sum(told[name] for told in counts.values() if told)
        shown.append(tile(total, "late" if name in RANKED else "in", "sites", head.lower()))
    return f"<p class=sum>{''.join(shown)}</p>"


def page_of(folder, company, states):
    """The page's text."""
    title = f"Sites of {escape(os.path.basename(folder))}"
    counts = {site: counts_of(folder, site) for site in states}
    when = minute(datetime.datetime.now(datetime.timezone.utc))
    faults = "".join(f'<li class="late">{escape(fault)}</li>' for fault in company.faults[:MOST_OPEN])
    head = "<h2>Nothing is planned: the links are refused</h2>"
    refused = f"<section id=refused>\n{head}\n<ul class=said>{faults}</ul>\n</section>\n" if faults else ""
    kinds = "; ".join(f"{head.lower()}: {what}" for _, head, what, _ in COUNTS)
    note = f"<p class=note>Counts are of the last good plan, and lead to their part of the site's page. {kinds[0].upper()}{kinds[1:]}.</p>"
    return f"""<!doctype html>
<html lang="en">
<head>
<meta charset="utf-8">
<meta name="viewport" content="width=device-width, initial-scale=1">
<title>{title}</title>
<style>
{STYLE}</style>
</head>
<body>
<header>
<h1>{title}</h1>
<p>As of <b>{when}</b> UTC; sites: <b>{len(states)}</b></p>
{tiles(states, counts)}
</header>
<main>
{refused}{lost_section(folder, states, counts) if not faults else ""}
{first_section(states, counts)}
<section id=sites>
<h2>All sites</h2>
{note}
{table_of("All sites", sorted(states), states, counts)}
</section>
</main>
</body>
</html>
"""


def write_index(folder, company, states):
    """Writes `out/index.html`, whole under its name."""
    os.makedirs(os.path.join(folder, "out"), exist_ok=True)
    write_whole(os.path.join(folder, "out", "index.html"), page_of(folder, company, states))
