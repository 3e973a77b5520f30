"""Clocks, and the line of a class: its transactions one after the other, each in attempts.

An attempt sends READs, gets rows, and commits with a WRITE to each module that has a copy of what it changes; a REJECT
ends it, and its transaction starts again. Definition: crates/sdd_rules/specs/attempt/Clocks.antt, Queues.antt, Attempts.antt,
Acts.antt, Standings.antt.
"""
from dataclasses import dataclass

from sdd.model.statements import Txn
from sdd.model.workload import Site
from sdd.reference.exchange import Exchange
from sdd.reference.graph import conditions
from sdd.reference.messages import Message, Record
from sdd.reference.plain import effect, uses_of


class Clock:
    """Its timestamps are ticks * 64 + the number of its module; no timestamp to come is at or below its bound."""

    def __init__(self, number):
        self.number, self.ticks = number, 0

    def push(self, time):
        self.ticks = max(self.ticks, time // 64)

    def tick(self, n=1):
        self.ticks += n

    def timestamp(self):
        return self.ticks * 64 + self.number

    def bound(self):
        return self.ticks * 64 + 63

    def handed(self, message):
        """What pushes a clock."""
        if message.kind in ("ASK", "RELEASE", "HELD"):
            self.push(message.time)
        elif message.kind == "REJECT":
            self.push(message.write)


@dataclass
class Queued:
    number: int
    txn: Txn
    tries: int = 0


class Line:
    """The queue of a class, of which the first may have an attempt under way. `bases` has the database that each
    attempt reads, by its timestamp: the copies as they are just before its Answers."""

    def __init__(self, cat, cls, bases):
        self.cat, self.cls, self.bases = cat, cls, bases
        self.queue, self.exchange = [], None

    @property
    def is_idle(self):
        return self.exchange is None

    @property
    def time(self):
        return self.exchange.time

    def handed(self, site, message):
        if self.is_idle or site.kind != "D":
            return
        if message.kind == "REJECT" and (message.time, message.cls) == (self.time, self.cls):
            self.exchange = None
        else:
            self.exchange.handed(site.number, message)

    def start(self, clock, pairs):
        """The Start of an attempt of the first in the queue, and its READs."""
        first = self.queue[0]
        first.tries += 1
        p2 = clock.bound()
        clock.tick()
        own, uses = clock.timestamp(), uses_of(self.cat, first.txn)
        reads = [(dm, self.read_to(dm, first, uses, pairs, own, p2)) for dm in self.modules(uses)]
        self.exchange = Exchange(self.cls, own, first.txn, reads)
        record = Record("start", first.number, first.tries, self.cls, time=own, p2=p2 if self.cls else None, uses=tuple(uses))
        return record, to_modules(reads)

    def modules(self, uses):
        """Where it reads; undeclared everywhere."""
        if self.cls == 0:
            return range(1, self.cat.dms + 1)
        return sorted({self.cat.read_at(self.cls, f) for use in uses for f in use.fragments})

    def read_to(self, dm, first, uses, pairs, own, p2):
        asked = {f for use in uses for f in use.fragments}
        here = []
        for use in uses:
            fragments = tuple(f for f in use.fragments if self.cat.read_at(self.cls, f) == dm)
            here += [use._replace(fragments=fragments)] if fragments else []
        conds = tuple(conditions(self.cat, pairs, self.cls, asked, dm, own, p2))
        return Message("READ", self.cls, own, first.number, first.tries, conds, tuple(here))

    def act(self):
        """The next message of the exchange, or the Commit once it is over; None where it awaits an answer."""
        if self.is_idle:
            return None
        if self.exchange.to_send:
            return None, to_modules([self.exchange.to_send.pop(0)])
        return self.commit() if self.exchange.phase == "over" else None

    def commit(self):
        first, x = self.queue.pop(0), self.exchange
        self.exchange = None
        reply, changes = effect(self.cat, self.bases.get(x.time, {}), first.txn)
        by_fragment = [(self.cat.fragment_of(*item), item[1], row) for item, row in changes.items()]
        by_fragment.sort(key=lambda c: (self.cat.place[c[0]], c[1]))
        writes = []
        for dm in range(1, self.cat.dms + 1):
            here = tuple(c for c in by_fragment if dm in self.cat.fragment[c[0]].copies)
            if here or self.cls == 0:
                writes.append((dm, Message("WRITE", self.cls, x.time, first.number, changes=here)))
        record = Record("commit", first.number, first.tries, self.cls, time=x.time, reply=reply, changes=changes,
                        values=x.values, rows=x.rows)
        return record, to_modules(writes)

    def standing(self, number):
        """How the line has a transaction: None, ("queued", class, place), or ("underway", class, time, lowest site)."""
        place = next((k for k, q in enumerate(self.queue) if q.number == number), None)
        if place is None:
            return None
        if self.is_idle:
            return "queued", self.cls, place + 1
        if place:
            return "queued", self.cls, place
        return "underway", self.cls, self.time, Site("D", min(self.exchange.lacks)) if self.exchange.lacks else Site("U", 0)


def to_modules(messages):
    return [(Site("D", dm), message) for dm, message in messages]
