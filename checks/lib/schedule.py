"""Which crate is built next and with how many jobs, and how long that takes. A crate is ready once those that it stands on are built, and
the one with the longest chain of crates behind it goes first, with the number of jobs for which the whole is expected to end soonest."""
import pathlib

import repository

# What was measured, by checks/lib/build --measure.
TABLE = pathlib.Path(__file__).resolve().with_name("seconds")
# A check gains little from more jobs than these.
MOST_JOBS = 4
# How many times faster a crate is proved by so many jobs.
FASTER_BY = {1: 1.0, 2: 1.6, 3: 2.1, 4: 2.5}
# Bytes of memory that a check takes with one job, and with each further one.
FIRST_JOB, FURTHER_JOB = 3_000_000_000, 1_500_000_000


def memory_of(jobs):
    return FIRST_JOB + (jobs - 1) * FURTHER_JOB


def table():
    rows = [it.split() for it in TABLE.read_text().splitlines() if it and not it.startswith("#")] if TABLE.is_file() else []
    return {name: float(seconds) for name, seconds in rows}


def seconds_of(names):
    """How long one job takes for each crate: what was measured, and else what the others' lines let expect."""
    told = table()
    lines = {it: repository.crates()[it].lines() for it in {*names, *(told.keys() & repository.crates().keys())}}
    measured = [it for it in lines if it in told]
    a_line = sum(told[it] for it in measured) / max(sum(lines[it] for it in measured), 1) or 0.06
    return {it: told.get(it, 10 + a_line * lines[it]) for it in names}


class Schedule:
    """The crates that are left, each behind those that it stands on; those at work, with their jobs and when they began; and those done."""

    def __init__(self, seconds, processors, memory):
        """seconds: by the name of each crate, how long one job takes."""
        self.seconds, self.processors, self.memory = dict(seconds), processors, memory
        self.left, self.running, self.done = list(seconds), {}, set()
        self.chain = dict(seconds)
        for name in reversed(self.left):
            for it in repository.crates()[name].stands_on:
                self.chain[it] = max(self.chain[it], seconds[it] + self.chain[name])

    def copy(self):
        other = object.__new__(Schedule)
        vars(other).update(vars(self), left=list(self.left), running=dict(self.running), done=set(self.done))
        return other

    def first_ready(self):
        """The crate that goes next, and the most jobs that it may have now: none where it can't be started."""
        ready = [it for it in self.left if all(below in self.done for below in repository.crates()[it].stands_on)]
        jobs = [it for it, _ in self.running.values()]
        idle, room = self.processors - sum(jobs), self.memory - sum(map(memory_of, jobs))
        most = min(idle, MOST_JOBS, 1 + int((room - FIRST_JOB) // FURTHER_JOB))
        return max(ready, key=self.chain.get, default=None), max(most, 0 if jobs else 1)

    def start(self, name, jobs, now):
        self.left.remove(name)
        self.running[name] = jobs, now

    def end(self, name):
        del self.running[name]
        self.done.add(name)

    def slow_down(self, factor):
        """This machine takes so many times longer than was told."""
        self.seconds = {name: it * factor for name, it in self.seconds.items()}
        self.chain = {name: it * factor for name, it in self.chain.items()}

    def next(self, now):
        """The crate to start now, with its jobs; or None, where none can be or it is better to wait for one that ends."""
        name, most = self.first_ready()
        if not name or not most:
            return None
        ways = {}
        for jobs in range(1, most + 1):
            other = self.copy()
            other.start(name, jobs, now)
            ways[name, jobs] = expected(other, now)
        best = min(ways, key=ways.get)
        return best if not self.running or ways[best] <= expected(self, now, waits=True) else None


def share_of(schedule, name, most):
    """As large a share of the processors as the crate's chain is of the work that is left."""
    work = sum(schedule.seconds[it] for it in [*schedule.left, *schedule.running])
    return min(max(round(schedule.processors * schedule.chain[name] / work), 1), most)


def expected(schedule, now, waits=False):
    """The seconds that the rest of a schedule takes, where each crate gets a share of the processors. waits: begins with the next end."""
    at, rest = now, schedule.copy()
    # A job that has taken longer than was told goes on for a quarter of what it took.
    ends = {name: max(began + rest.seconds[name] / FASTER_BY[jobs], now + (now - began) / 4) for name, (jobs, began) in rest.running.items()}
    while rest.left or ends:
        name, most = (None, 0) if waits else rest.first_ready()
        if name and most:
            jobs = share_of(rest, name, most)
            rest.start(name, jobs, at)
            ends[name] = at + rest.seconds[name] / FASTER_BY[jobs]
            continue
        name, waits = min(ends, key=ends.get), False
        at = ends.pop(name)
        rest.end(name)
    return at - now


def minutes_from_nothing(target, processors):
    """How many minutes a build of this target takes where nothing is built, and memory isn't short."""
    name = repository.TARGETS[target]
    seconds = seconds_of([*repository.below(name), name])
    return expected(Schedule(seconds, processors, processors * memory_of(1)), 0) / 60
