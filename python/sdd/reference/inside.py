"""The states of a run, as JSON: a first line with the copies, and then a line for each event that has a number.

A line tells what changed: what was put in flight and taken off, what pipes and queues got and gave, and, anew, how each
site stands that took part. The members are those of `line` below, in this order; one that has nothing to tell is left
out. Definition: the log of sdd_log/specs, seen at each mark.
"""
import json

from sdd.model.words import value_word
from sdd.model.workload import Site, U
from sdd.reference.links import Ack
from sdd.reference.world import World


def row_word(row):
    return None if row is None else " ".join(map(value_word, row))


def some(**members):
    """The members that have something to tell."""
    return {name: value for name, value in members.items() if value not in (None, False, 0, [], ())}


class Watch:
    """A world, and how much of it is reported."""

    def __init__(self, world):
        self.world, self.ways = world, world.links.ways
        self.place = {link: k for k, link in enumerate(self.ways)}
        self.flying = {link: 0 for link in self.ways}
        self.reported = {link: 0 for link in self.ways}         # messages that were reported in full
        self.handed = {link: 0 for link in self.ways}
        self.queues, self.pipes, self.records = {}, {}, 0

    def name(self, n):
        return self.world.work.txns[n - 1].name

    def cls(self, number):
        return self.world.cat.class_name(number)

    def first_line(self):
        cat = self.world.cat
        copies = [{"at": "D%d" % dm, "fragment": f, "rows": [row_word(row) for _, row in copy.rows()]}
                  for dm in range(1, cat.dms + 1) for f, copy in self.world.sites[Site("D", dm)].copies.items()]
        return {"inside": 1, "tms": cat.tms, "dms": cat.dms, "copies": copies}

    def line(self, happened):
        event = happened.event
        busy = sorted(self.world.busy, key=lambda s: s.rank)
        links = self.links_of(event, busy)
        return {"event": self.world.events, "of": happened.of, **some(round=happened.round),
                "do": event.words(self.world.work.txns), **some(nothing=happened.found in (None, False)),
                **self.took(event, happened.found),
                **some(handed=self.hands(links), put=self.puts(event, happened.found, links), queues=self.changed_queues(busy),
                       pipes=self.changed_pipes(busy), rows=self.changed_rows(),
                       sites=[self.site(s) for s in self.shown(event, happened.found, busy)])}

    def links_of(self, event, busy):
        """The links on which something may have changed."""
        found = {(event.a, event.b), (event.b, event.a)} & set(self.ways)
        found |= {link for link in self.ways if link[0] in busy or link[1] in busy} if busy else set()
        return sorted(found, key=self.place.get)

    # What happened on links.

    def took(self, event, found):
        if event.word not in ("deliver", "lose") or found is None:
            return {}
        reported = {"took": self.packet(found)}
        if event.word == "deliver" and isinstance(found, Ack):
            reported["acked"] = self.ways[event.b, event.a].acked
        elif event.word == "deliver":
            reported["delivered"] = self.ways[event.a, event.b].delivered
        return reported

    def hands(self, links):
        new = [(a, b) for a, b in links if self.world.handed[a, b] != self.handed[a, b]]
        self.handed.update({link: self.world.handed[link] for link in new})
        return [[str(a), str(b), self.handed[a, b]] for a, b in new]

    def puts(self, event, found, links):
        reported = []
        if event.word in ("deliver", "lose") and found is not None:
            self.flying[event.a, event.b] -= 1
        for link in links:
            new = self.ways[link].flight[self.flying[link]:]
            self.flying[link] += len(new)
            if new:
                reported.append([str(link[0]), str(link[1]), [self.packet(p, link) for p in new]])
        return reported

    def packet(self, packet, link=None):
        if isinstance(packet, Ack):
            return {"ack": packet.upto}
        if link is None or packet <= self.reported[link]:
            return packet
        self.reported[link] = packet
        return self.message(packet, self.ways[link].sent[packet - 1])

    def message(self, n, m):
        reported = {"n": n, "kind": m.kind}
        if m.cls is not None:
            reported["class"] = self.cls(m.cls)
        if m.time is not None:
            reported["time"] = m.time
        if m.kind == "READ":
            reported.update(txn="%s#%d" % (self.name(m.txn), m.attempt), conds=[[self.cls(c.cls), c.time] for c in m.conds])
        elif m.kind == "WRITE":
            reported.update(txn=self.name(m.txn), changes=[[f, str(key), row_word(row)] for f, key, row in m.changes])
        elif m.kind == "REJECT":
            reported.update(by=self.cls(m.by), write=m.write)
        elif m.kind in ("READY", "REDUCED"):
            reported["rows"] = sum(count for _, count in m.counts)
        elif m.kind == "ROWS":
            reported["rows"] = len(m.rows)
        elif m.kind in ("VALUES", "REDUCE"):
            reported["values"] = len(m.values)
        return reported

    # What changed at sites.

    def lines_at(self, site):
        module = self.world.sites[site]
        return [module.line] if site == U else list(module.lines.values()) if site.kind == "T" else []

    def changed_queues(self, busy):
        reported = []
        for site in busy:
            for line in self.lines_at(site):
                old = self.queues.get((site, line.cls), [])
                new = [q.number for q in line.queue]
                self.queues[site, line.cls] = new
                came, gone = [self.name(n) for n in new if n not in old], [n for n in old if n not in new]
                if came or gone:
                    reported.append({"class": self.cls(line.cls), **some(**{"in": came, "out": len(gone)})})
        return reported

    def changed_pipes(self, busy):
        reported, self.processed = [], {}
        for site in busy:
            for cls, pipe in enumerate(self.world.sites[site].pipes if site.kind == "D" else ()):
                came, done = self.pipes.get((site, cls), (0, 0))
                self.pipes[site, cls] = len(pipe.came), pipe.done
                self.processed[site.number, cls] = pipe.came[done:pipe.done]
                if (came, done) != self.pipes[site, cls]:
                    sent = self.ways[self.world.sites[site].homes[cls], site].sent
                    new = [1 + next(k for k, m in enumerate(sent) if m is x) for x in pipe.came[came:]]
                    reported.append({"at": str(site), "class": self.cls(cls), **some(**{"in": new, "out": pipe.done - done}),
                                 "passed": pipe.passed()})
        return reported

    def changed_rows(self):
        reported, records = {}, self.world.records[self.records:]
        self.records = len(self.world.records)
        for r in records:
            if r.kind == "apply":
                write = next(m for m in self.processed[r.dm, r.cls] if m.txn == r.txn)
                items = self.world.sites[Site("D", r.dm)].copies
                for f, key, _ in write.changes:
                    reported["D%d" % r.dm, f, str(key)] = row_word(items[f].items.get(key, (0, None))[1])
        return [[*item, row] for item, row in reported.items()]

    # How sites stand.

    def shown(self, event, found, busy):
        turned = [event.a] if event.word in ("down", "up") and found else []
        return sorted(set(busy) | set(turned), key=lambda s: s.rank)

    def site(self, site):
        module = self.world.sites[site]
        reported = {"at": str(site), **some(down=site in self.world.down)}
        if site.kind == "D":
            return {**reported, **some(heads=self.heads(module))}
        reported["clock"] = module.clock.ticks
        if site == U:
            phase, lacks = self.phase_of(module)
            reported.update(phase=phase, **some(lacks=lacks))
        else:
            asks = sorted(module.asks, key=lambda q: q[1].cls)
            reported.update(some(hold=module.on_hold, owes=module.helds < module.holds,
                             asks=[[self.cls(m.cls), str(s), m.time] for s, m in asks]))
        return {**reported, **some(active=[self.active(line) for line in self.lines_at(site) if not line.is_idle])}

    def active(self, line):
        first = line.queue[0]
        return {"class": self.cls(line.cls), "txn": "%s#%d" % (self.name(first.number), first.tries), "time": line.time,
                "phase": line.exchange.phase, **some(lacks=["D%d" % d for d in line.exchange.lacks])}

    def phase_of(self, module):
        """What the module at U is at, and which sites' answers lack."""
        if not module.line.is_idle:
            return "reading", ["D%d" % d for d in module.line.exchange.lacks]
        if module.is_holding:
            return "holding", ["T%d" % t for t in module.lacking()]
        if any(count < module.commits for count in module.releases.values()):
            return "writing", ["D%d" % d for d in range(1, module.dms + 1) if d not in module.dones]
        return "idle", []

    def heads(self, module):
        reported = []
        for cls, pipe in enumerate(module.pipes):
            if pipe.waits:
                lacking = [[self.cls(c.cls), c.time] for c in pipe.head.conds if not module.is_met(c)]
                reported.append({"class": self.cls(cls), "waits": lacking})
            elif pipe.head:
                reported.append({"class": self.cls(cls), "held": [self.cls(c) for c in module.held_by(pipe.head)]})
        return reported


def spelled(reported):
    return json.dumps(reported, separators=(",", ":"), ensure_ascii=False) + "\n"


def inside_text(cat, work):
    world = World(cat, work)
    watch = Watch(world)
    lines = [spelled(watch.first_line())]
    for happened in world.happens():
        lines.append(spelled(watch.line(happened)))
    return "".join(lines)
