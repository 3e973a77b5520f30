"""A run: the events of a schedule, one after the other, and all that is due behind each.

Behind an event each site that isn't down does what is due there, then messages are handed over, link by link and in
order, until neither is left; a settle makes rounds until the links are quiet. Definition: crates/sdd_log/specs/Due.antt,
Marks.antt, Traffic.antt, Lawful.antt.
"""
from typing import NamedTuple

from sdd.model.workload import Event, Site, U, sites_of
from sdd.reference.data_module import DataModule
from sdd.reference.links import Links
from sdd.reference.messages import Record
from sdd.reference.plain import class_for
from sdd.reference.redeclare import eras
from sdd.reference.transaction_module import TransactionModule
from sdd.reference.undeclared_module import UndeclaredModule

MOST = 2**32 - 1


class Limit(Exception):
    """The run would have an event or a message on one link beyond its limit."""


class Happened(NamedTuple):
    """An event that has a number."""
    event: Event
    of: int                 # the place of the schedule's event that it belongs to, from 1
    round: int              # of a settle or a redeclare: in which round, from 1; else 0
    found: object           # the packet that it took, or None; True where it has none; False where it found nothing


class World:
    def __init__(self, cat, work, rows=None):
        """ROWS has the first rows of each data module; without it each has those of the workload."""
        self.cat, self.work = work.all_classes(cat), work
        self.eras = eras(cat, work.lists)
        self.links, self.bases = Links(self.cat), {}
        self.sites = {U: UndeclaredModule(self.cat, self.bases)}
        for site in sites_of(self.cat)[1:]:
            self.sites[site] = (
                TransactionModule(self.cat, cat, site.number, self.bases) if site.kind == "T"
                else DataModule(self.cat, site.number, work.rows if rows is None else rows[site.number - 1], self.bases))
        self.handed = {link: 0 for link in self.links.ways}     # how many messages were handed over
        self.down, self.homes = set(), {}                       # homes: where transactions were submitted
        self.events, self.records = 0, []
        self.put, self.busy = [], set()     # of the event under way: what was put on links, and which sites took part

    def happens(self):
        """Carries out the schedule; gives each event that has a number once all is done that it makes due."""
        for of, event in enumerate(self.work.events, 1):
            if event.word in ("settle", "redeclare"):
                yield from self.settle(of)
            if event.word != "settle":
                yield self.carry_out(event, of, 0)

    def settle(self, of):
        number = 0
        while not self.links.is_quiet():
            number += 1
            for event in self.links.round():
                yield self.carry_out(event, of, number)

    def carry_out(self, event, of, number):
        if self.events == MOST:
            raise Limit
        self.events += 1
        self.put, self.busy = [], set()
        found = self.do(event)
        if found is None or found is False:
            self.record(Record("nothing"))
        self.finish()
        return Happened(event, of, number, found)

    def do(self, event):
        """What the event itself does; None or False where it finds nothing to do."""
        word, a, b, n = event.word, event.a, event.b, event.n
        if word in ("deliver", "lose", "repeat"):
            return getattr(self.links, word)(a, b, n)
        if word == "resend":
            return self.links.resend(a, b)
        if word == "submit":
            return self.submit(event.txn)
        if word == "tick":
            self.sites[a].clock.tick(n)
            self.busy.add(a)
        elif word in ("down", "up"):
            return self.turn(a, word == "down")
        else:
            self.redeclare()
        return True

    def submit(self, n):
        txn, era = self.work.txns[n - 1], self.eras[0]
        self.record(Record("submit", n))
        self.homes[n] = Site("T", txn.tm) if class_for(era, txn) else U
        self.sites[self.homes[n]].submit(n, txn)
        self.busy.add(self.homes[n])
        return True

    def turn(self, site, is_down):
        """A module goes down or comes up; once it is up it does what is due there before anything is handed to it."""
        if (site in self.down) == is_down:
            return False
        self.down = self.down | {site} if is_down else self.down - {site}
        self.busy |= set() if is_down else {site}
        return True

    def redeclare(self):
        """The next class list is in force, at the greatest bound of the clocks."""
        self.eras = self.eras[1:]
        modules = {site: module for site, module in self.sites.items() if site.kind == "T"}
        time = max(module.clock.bound() for module in modules.values())
        for module in modules.values():
            module.put_in_force(self.eras[0], time)
        self.busy |= set(modules)

    def finish(self):
        """All that is due: acts at sites, at none that is down, and then one message is handed over, and so on."""
        todo = sorted(self.busy - self.down, key=lambda site: site.rank)
        while True:
            for site in todo:
                while act := self.sites[site].act():
                    self.note(site, *act)
            todo = self.hand_over()
            if not todo:
                return

    def note(self, site, record, sends):
        if record:
            self.record(record)
        for to, message in sends:
            way = self.links.ways[site, to]
            if len(way.sent) == MOST:
                raise Limit
            way.put(message)
            self.put.append((site, to, message))

    def record(self, record):
        self.records.append(record._replace(event=self.events))

    def hand_over(self):
        """Hands the next message over that was delivered, on the first link; a module that is down gets none."""
        for (a, b), way in self.links.ways.items():
            if self.handed[a, b] < way.delivered and b not in self.down:
                self.sites[b].handed(a, way.sent[self.handed[a, b]])
                self.handed[a, b] += 1
                self.busy.add(b)
                return [b]
        return []


def run(cat, work):
    """The world once all events are carried out."""
    world = World(cat, work)
    for _ in world.happens():
        pass
    return world
