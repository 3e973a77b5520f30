"""The module at U: it runs the transactions that no class covers, each alone.

It tells every transaction module to hold, starts once all have ended what they were at, writes everywhere, and releases
them once every data module has applied that. Definition: crates/sdd_rules/specs/umod/Due.antt, Views.antt, Standing.antt.
"""
from sdd.model.workload import Site
from sdd.reference.attempts import Clock, Line, Queued
from sdd.reference.breaking import is_broken
from sdd.reference.messages import Message


class UndeclaredModule:
    def __init__(self, cat, bases):
        self.dms, self.clock, self.line = cat.dms, Clock(0), Line(cat, 0, bases)
        tms = range(1, cat.tms + 1)
        self.holds, self.helds, self.releases = ({t: 0 for t in tms} for _ in range(3))
        self.commits = self.time = 0
        self.dones = []         # the data modules that applied the last commit, which has this time

    def handed(self, site, message):
        self.clock.handed(message)
        if message.kind == "HELD":
            self.helds[site.number] += 1
        if message.kind == "DONE" and message.time == self.time:
            self.dones.append(site.number)
        self.line.handed(site, message)

    def submit(self, number, txn):
        self.line.queue.append(Queued(number, txn))

    def act(self):
        act = self.line.act()
        if act and act[0]:
            self.commits, self.time, self.dones = self.commits + 1, act[0].time, []
        return act or self.release() or self.start() or self.hold()

    def release(self):
        for t, count in self.releases.items():
            if count < self.commits and (len(self.dones) == self.dms or is_broken("early-release")):
                self.releases[t] += 1
                return None, [(Site("T", t), Message("RELEASE", time=self.time))]
        return None

    def start(self):
        first = self.line.queue[:1]
        if first and first[0].tries == 0 and all(
                self.holds[t] == self.helds[t] == self.commits + 1 for t in self.holds):
            return self.line.start(self.clock, {})
        return None

    def hold(self):
        for t, count in self.holds.items():
            if self.line.queue and self.releases[t] == count:
                self.holds[t] += 1
                return None, [(Site("T", t), Message("HOLD"))]
        return None

    @property
    def is_holding(self):
        """The next transaction is served from its first HOLD on."""
        return self.line.is_idle and self.commits + 1 in self.holds.values()

    def lacking(self):
        """The modules of which a HELD for the next transaction lacks."""
        return [t for t, count in self.helds.items() if count != self.commits + 1]

    def standing(self, number):
        found = self.line.standing(number)
        if found and found[0] == "queued" and self.is_holding:
            if found[2] == 1:
                return "underway", 0, None, Site("T", self.lacking()[0]) if self.lacking() else Site("U", 0)
            return "queued", 0, found[2] - 1
        return found
