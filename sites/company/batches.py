"""Batches of sites: which there are, what each is made from, and the job that plans one."""

import contextlib
import hashlib
import json
import os
import re
from dataclasses import asdict

from .site import Night, Site, plan_site
from .states import Word, read_state, write_json, write_whole

MOST_SITES = 50
NIGHT, BATCHES = "night.json", "batches.json"
# The files of batches that no longer are.
OF_A_BATCH = re.compile(r"(\d+-\d+)\.(inputs|done|log)")


def batches_of(tier, jobs, size):
    """The sites of each batch, by its name: no two of different tiers, so that none waits for another of its batch."""
    found = {}
    for number in range(max(tier.values(), default=-1) + 1):
        sites = sorted(site for site in tier if tier[site] == number)
        step = size or min(max(-(-len(sites) // (2 * jobs)), 1), MOST_SITES)
        for begin in range(0, len(sites), step):
            found[f"{number:02}-{begin // step:05}"] = sites[begin : begin + step]
    return found


def buyers_of(batches, sites):
    """The batches that each batch waits for."""
    batch_of = {site: name for name, members in batches.items() for site in members}
    return {
        name: sorted({batch_of[buyer] for site in members for buyer in sites[site].buyers()})
        for name, members in batches.items()
    }


def lay_batches(night, batches, sites, sums):
    """Writes what each batch is made from, and has each planned again that is made from something else, or is not settled."""
    room = os.path.join(night.folder, "night")
    os.makedirs(room, exist_ok=True)
    for name in os.listdir(room):
        found = OF_A_BATCH.fullmatch(name)
        if found and found[1] not in batches:
            os.remove(os.path.join(room, name))
    for name, members in batches.items():
        told = {"sum": night.sum, "sites": {site: {**sites[site].told(), "sum": sums[site]} for site in members}}
        lay_batch(night, os.path.join(room, name), json.dumps(told, indent=1, sort_keys=True) + "\n", members)
    write_json(os.path.join(room, BATCHES), buyers_of(batches, sites))


def lay_batch(night, path, text, members):
    states = [read_state(night.out, site) for site in members]
    is_settled = all(state and state.word not in (Word.STOPPED, Word.RUNNING) for state in states)
    if not is_settled or read_text(f"{path}.done") != sum_of(text):
        with contextlib.suppress(FileNotFoundError):
            os.remove(f"{path}.done")
    if read_text(f"{path}.inputs") != text:
        write_whole(f"{path}.inputs", text)


def sum_of(text):
    return hashlib.sha256(text.encode()).hexdigest()


def read_text(path):
    try:
        with open(path, encoding="utf-8") as held:
            return held.read()
    except OSError:
        return None


def write_night(night, tool, memory, minutes):
    """Writes what all jobs of the night share, and what the workflow has to know."""
    told = {**asdict(night), "tool": tool, "job_memory": memory, "minutes": minutes}
    write_json(os.path.join(night.folder, "night", NIGHT), told)


def read_night(folder):
    with open(os.path.join(folder, "night", NIGHT), encoding="utf-8") as held:
        told = json.load(held)
    return Night(**{**{name: told[name] for name in ("program", "sum", "memory", "name")}, "folder": folder})


def is_done(night, batch):
    """Whether a batch has been planned from what it is made from now."""
    path = os.path.join(night.folder, "night", batch)
    return read_text(f"{path}.done") == sum_of(read_text(f"{path}.inputs") or "")


def plan_batch(folder, name):
    """Plans the sites of a batch, in their order. The answer is whether all of them have a state now."""
    night, path = read_night(folder), os.path.join(folder, "night", name)
    text = read_text(f"{path}.inputs")
    sites = json.loads(text)["sites"]
    for site, told in sites.items():
        if not night.is_over():
            state = plan_site(night, Site.of(site, told))
            print(f"{site}: {state.word}{' anew' if state.is_new else ''}{f': {state.why}' if state.why else ''}", flush=True)
    if night.is_over():
        print("another night has begun", flush=True)
        return False
    write_whole(f"{path}.done", sum_of(text))
    return True
