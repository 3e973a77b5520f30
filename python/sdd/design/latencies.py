"""What many timed runs tell of each class or kind of transaction, in milliseconds.

    found = Latencies("class")
    found.take(run)                 # a TimedRun
    found.groups, found.pairs
"""
import math
import re

PARTS = (50, 95, 99)
ALL = "all"


class Group:
    """The transactions of a class or a kind."""

    def __init__(self):
        self.commits = self.attempts = self.waits = 0
        self.waited, self.queued, self.to_commit, self.others = [], [], [], set()
        self.busy = 0.0             # the part of the time in which an attempt was under way, summed over the runs

    def take(self, told, more=0.0):
        self.attempts += told.attempts
        self.waits += len(told.waits)
        self.waited += [ms for _, _, ms in told.waits]
        if told.committed is not None:
            self.commits += 1
            self.queued.append(told.started - told.submitted)
            self.to_commit.append(told.committed - told.submitted + more)

    def join(self, other):
        self.commits, self.attempts, self.waits = self.commits + other.commits, self.attempts + other.attempts, self.waits + other.waits
        for field in ("waited", "queued", "to_commit"):
            getattr(self, field).extend(getattr(other, field))

    def part(self, field, percent):
        values = getattr(self, field)
        values.sort()               # again and again, which costs little once it is sorted
        return percentile(values, percent)

    def mean(self):
        return sum(self.to_commit) / len(self.to_commit) if self.to_commit else None


class Latencies:
    def __init__(self, by, ways=None):
        """`ways` has transactions that come from farther away, and how long their way there and back takes."""
        self.ways, self.known = ways or {}, {}
        self.by, self.groups, self.pairs, self.runs, self.drains = by, {}, {}, 0, []
        self.packets = self.unended = 0
        self.slowest = 0.0, 0, ""       # the longest time to commit, in which run, and of which transaction

    def take(self, run):
        self.runs += 1
        self.packets += run.packets()
        name_of, end = run.plans.whole.class_name, max((x.committed or 0 for x in run.told.values()), default=0)
        for told in run.told.values():
            plan, (name, group) = told.plan, self.group_of(told.plan, name_of)
            group.take(told, self.ways.get(plan.name, 0.0))
            for _, awaited, ms in told.waits:
                for writer in awaited:
                    self.pairs.setdefault((name, name_of(writer)), []).append(ms)
            if told.committed is None:
                self.unended += 1
                continue
            took = told.committed - told.submitted
            if took >= self.slowest[0]:
                self.slowest = max(self.slowest, (took, self.runs - 1, plan.name))
            if end:
                group.busy += (told.committed - told.started) / end
            if not plan.cls:
                self.drains.append(took)

    def group_of(self, plan, name_of):
        """The name of the class or the kind of a transaction, and its group."""
        if (plan.cls, plan.name) not in self.known:
            cls, kind = name_of(plan.cls), kind_of(plan.name)
            name, other = (cls, kind) if self.by == "class" else (kind, cls)
            group = self.groups.setdefault(name, Group())
            group.others.add(other)
            self.known[plan.cls, plan.name] = name, group
        return self.known[plan.cls, plan.name]

    def whole(self):
        made = Group()
        for group in self.groups.values():
            made.join(group)
        return made

    def ordered(self):
        """The groups, the slowest first, and all together."""
        slowest = sorted(self.groups.items(), key=lambda x: -(x[1].part("to_commit", 50) or 0))
        return dict(slowest) | {ALL: self.whole()}


def percentile(values, percent):
    """The least value that so many of 100 don't exceed; None of none."""
    ordered = sorted(values)
    return ordered[max(0, math.ceil(len(ordered) * percent / 100) - 1)] if ordered else None


def kind_of(name):
    return re.sub(r"_?\d+$", "", name) or name
