"""A transaction module: it runs the classes that are at home there, answers ASKs by NULLs, and holds for U.

Of what is due the first is done: what attempts send and their Commits; then NULLs; then a HELD; then Starts, which stop
while the module is on hold. Definition: crates/sdd_rules/specs/tm/Due.antt, Views.antt.
"""
from sdd.model.workload import U
from sdd.reference.attempts import Clock, Line, Queued
from sdd.reference.breaking import is_broken
from sdd.reference.graph import diagonals_by_pair, protocol_table
from sdd.reference.messages import Message
from sdd.reference.plain import class_for


class TransactionModule:
    def __init__(self, cat, era, number, bases):
        """`cat` has the classes of all lists, `era` those in force."""
        self.clock = Clock(number)
        self.lines = {c: Line(cat, c, bases) for c, cls in enumerate(cat.classes, 1) if cls.tm == number}
        self.asks = []          # pairs of a site and its ASK, not answered yet
        self.holds = self.helds = self.releases = 0
        self.put_in_force(era)

    def put_in_force(self, era, time=0):
        self.era, self.pairs = era, diagonals_by_pair(protocol_table(era))
        self.clock.push(time)

    @property
    def on_hold(self):
        return self.holds > self.releases

    def handed(self, site, message):
        self.clock.handed(message)
        self.holds += message.kind == "HOLD"
        self.releases += message.kind == "RELEASE"
        if message.kind == "ASK":
            self.asks.append((site, message))
        for line in self.lines.values():
            line.handed(site, message)

    def submit(self, number, txn):
        self.lines[class_for(self.era, txn)].queue.append(Queued(number, txn))

    def act(self):
        """Does the first thing that is due: a record or None, and what is sent with it. None where nothing is due."""
        for line in self.lines.values():
            act = line.act()
            if act:
                return act
        return self.null() or self.held() or self.start()

    def null(self):
        for line in self.lines.values():
            for ask in self.asks:
                time = self.null_time(line, ask[1].time) if ask[1].cls == line.cls else None
                if time is not None:
                    self.asks.remove(ask)
                    return None, [(ask[0], Message("NULL", line.cls, time))]
        return None

    def null_time(self, line, asked):
        """The time that the class has passed for sure, once that is enough."""
        if line.is_idle or is_broken("early-null"):
            return self.clock.bound()
        return line.time if line.time >= asked else None

    def held(self):
        if self.on_hold and self.helds < self.holds and all(line.is_idle for line in self.lines.values()):
            self.helds += 1
            return None, [(U, Message("HELD", time=self.clock.bound()))]
        return None

    def start(self):
        for line in self.lines.values():
            if line.is_idle and line.queue and not self.on_hold:
                return line.start(self.clock, self.pairs)
        return None

    def standing(self, number):
        return next((found for line in self.lines.values() if (found := line.standing(number))), None)
