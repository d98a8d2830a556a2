"""Which crates are proved next, by how many processes each, and how long all of it takes."""

from dataclasses import dataclass, field

# More processes for one crate seldom help.
MOST_JOBS = 4
# How much faster a crate is proved by so many processes: each of them loads what stands below it.
SPEED = {1: 1.0, 2: 1.4, 3: 1.65, 4: 1.8}
# A way up that is so much of the longest one may prove the longest, since costs are reckoned.
NEAR = 0.85
# A crate that is itself so much of the longest way up is proved by two processes, though others go first.
DEAR = 0.25
# What is taken for the rate before much is proved: lines of proof a second, as if so many had been proved at it.
FIRST_RATE, FIRST_LINES = 30.0, 6000.0


@dataclass
class Plan:
    """Crates with what each stands on and what it costs, those that are proved, and those that are being proved, each with its
    processes: at most `lanes` for one, for which the others wait, and `room` for all."""

    below: dict
    weights: dict
    lanes: int
    done: set = field(default_factory=set)
    running: dict = field(default_factory=dict)
    room: int = 0

    def way_up(self, name):
        """What a crate and the dearest way up from it cost."""
        above = [it for it, below in self.below.items() if name in below]
        return self.weights[name] + max(map(self.way_up, above), default=0)

    def ready(self):
        """The crates that can be proved now, those with the longest way up first."""
        open_ones = [it for it in self.below if it not in self.done and it not in self.running]
        return sorted((it for it in open_ones if self.done.issuperset(self.below[it])), key=self.ways.get, reverse=True)

    def __post_init__(self):
        self.ways = {name: self.way_up(name) for name in self.below}
        self.room = max(self.room, self.lanes)

    def longest_way(self):
        """The cost of the longest way up from a crate that is being proved, or can be now."""
        return max(self.ways[it] for it in [*self.ready(), *self.running])

    def is_urgent(self, name):
        """Whether no crate that is being proved, or can be now, has a much longer way up."""
        return self.ways[name] >= NEAR * self.longest_way()

    def is_dear(self, name):
        """Whether a crate that is not urgent would end late by one process."""
        return self.weights[name] >= DEAR * self.longest_way()

    def start(self):
        """Takes those that go next, and returns them with their processes: one each, two to a dear one, and all lanes to an urgent one.
        Where there is no more room, up to half of the lanes are for the others."""
        begun, ready = {}, self.ready()
        aside = max(self.room - self.lanes, self.lanes // 2)
        urgent = {it for it in [*ready, *self.running] if self.is_urgent(it)}
        dear = {it for it in ready if self.is_dear(it)}
        for place, name in enumerate(ready):
            others = sum(self.running.values())
            if name in urgent:
                wanted = self.room - min(aside, others + len(ready) - place - 1)
                jobs = min(self.lanes, MOST_JOBS, wanted, self.room - others)
            else:
                waited = sum(jobs for it, jobs in self.running.items() if it not in urgent)
                jobs = min(2 if name in dear else 1, aside - waited, self.room - others)
            if jobs > 0:
                begun[name] = self.running[name] = jobs
        return begun

    def end(self, name):
        """A crate is proved."""
        del self.running[name]
        self.done.add(name)


def seconds_left(plan, spent, rate):
    """How long it takes until all is proved, at a rate of lines a second and process. `spent` is how long each crate that is
    being proved has been at it."""
    ahead = Plan(plan.below, plan.weights, plan.lanes, set(plan.done), dict(plan.running), plan.room)
    # (what takes longer than it should is taken to have a tenth of it left)
    lines = {name: max(plan.weights[name] - rate * SPEED[jobs] * spent.get(name, 0), plan.weights[name] / 10) for name, jobs in plan.running.items()}
    clock = 0.0
    while len(ahead.done) < len(ahead.below):
        for name in ahead.start():
            lines[name] = plan.weights[name]
        ends = {name: lines[name] / (rate * SPEED[jobs]) for name, jobs in ahead.running.items()}
        first = min(ends, key=ends.get)
        for name, jobs in ahead.running.items():
            lines[name] -= ends[first] * rate * SPEED[jobs]
        clock += ends[first]
        ahead.end(first)
    return clock


def rate_seen(proved):
    """The lines a second and process of crates that were proved, each given as its lines, its seconds and its processes. One that
    took a tenth of what it should was proved before."""
    worked = [(lines, seconds * SPEED[jobs]) for lines, seconds, jobs in proved]
    new = [(lines, seconds) for lines, seconds in worked if 10 * FIRST_RATE * seconds > lines]
    return (FIRST_LINES + sum(it for it, _ in new)) / (FIRST_LINES / FIRST_RATE + sum(it for _, it in new))


def told(done, count, seconds):
    """The line that says how far it is."""
    minutes = round(seconds / 60)
    left = f"about {minutes} minutes" if minutes > 1 else "about a minute" if minutes else "less than a minute"
    return f"crate {min(done + 1, count)} of {count}, {left} left"
