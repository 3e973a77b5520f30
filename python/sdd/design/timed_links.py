"""A timed run with the packets of its links: acknowledgements, losses and resends; and the schedule and trace of the run.

    run = LinkedRun(plans, times, phases, rng, is_traced=False)

Where no packet is lost its times are those of TimedRun, to which acknowledgements do nothing. Of each message one packet is
under way, and what isn't acknowledged some time after it was sent is sent again, link by link, as the program's `resend` does.
With `is_traced` it keeps the events of the schedule and the trace that `sdd1 run` prints for it: both are compared each time
that explore runs.
"""
from collections import deque

from sdd.design.timed import RESEND, SERVED, TimedRun

ACK = 0                     # the number of a packet that acknowledges; messages are numbered from 1


class Way:
    """One direction between two sites: what is sent and not yet acknowledged, and what has arrived of it."""
    __slots__ = ("sent", "unacked", "has_timer", "reached", "arrived", "delivered")

    def __init__(self):
        self.sent, self.unacked, self.has_timer = 0, deque(), False     # unacked: lists of number, message, time of the last sending
        self.reached = set()                # numbers of messages of which a packet reached the site, and may still queue there
        self.arrived, self.delivered = {}, 0        # number -> message, of those that wait for one before


class LinkedRun(TimedRun):
    def __init__(self, plans, times, phases, rng, is_traced=False):
        self.loss, self.patience = times.loss / 100, times.patience
        self.ways = [Way() for _ in range(times.size * times.size)]
        self.last_served = [0.0] * (times.size * times.size)
        self.arrivals, self.event = 0, 0
        self.trace, self.schedule = ([], []) if is_traced else (None, None)
        super().__init__(plans, times, phases, rng)

    def packets(self):
        return self.arrivals

    # Packets.

    def takers(self):
        return [(self.receive if self.service is None else self.serve, to) for to in range(self.size)]

    def send(self, a, b, message):
        link = a * self.size + b
        way = self.ways[link]
        way.sent += 1
        way.unacked.append([way.sent, message, self.now])
        self.send_packet(a, b, link, (way.sent, message))
        if self.loss and not way.has_timer:
            way.has_timer = True
            self.push(self.now + self.patience[link], RESEND, 0, (a, b))

    def send_packet(self, a, b, link, packet):
        time = self.now + self.base[link] * (1 + self.jitter * self.random())
        self.last[link] = max(time, self.last[link])
        self.push(self.last[link], b, a, self.lose(packet))

    def lose(self, packet):
        """The packet, or None where it is lost on its way."""
        return None if self.loss and self.random() < self.loss else packet

    def acknowledge(self, a, b, upto):
        """An acknowledgement from a to b; it takes the time of the link, and nothing is drawn for it."""
        link = a * self.size + b
        self.last[link] = max(self.last[link], self.now + self.base[link])
        self.push(self.last[link], b, a, self.lose((ACK, upto)))

    def resend(self, a, b):
        """A timer: what was sent long ago and isn't acknowledged is sent again, with all that was sent behind it."""
        link = a * self.size + b
        way = self.ways[link]
        way.has_timer = bool(way.unacked)
        if not way.unacked:
            return
        due = way.unacked[0][2] + self.patience[link]
        if due <= self.now:
            self.next_event("resend %s %s" % (self.name(a), self.name(b)))
            due = self.now + self.patience[link]
            for entry in way.unacked:
                entry[2] = self.now
                self.send_packet(a, b, link, (entry[0], entry[1]))
        self.push(due, RESEND, 0, (a, b))

    def serve(self, to, sender, packet):
        """A site handles its messages one after the other; other packets take it no time, but stay in their order."""
        link = sender * self.size + to
        way = self.ways[link]
        if packet is None or packet[0] == ACK or packet[0] in way.reached:
            done = max(self.now, self.last_served[link])
        else:
            way.reached.add(packet[0])
            done = self.free[to] = max(self.now, self.free[to]) + self.service[to]
        self.last_served[link] = max(done, self.last_served[link])
        self.push(done, SERVED, sender, (to, packet))

    def receive(self, to, sender, packet):
        """What a packet does at its site; None is one that was lost."""
        link = sender * self.size + to
        way = self.ways[link]
        self.next_event("%s %s %s 1" % ("deliver" if packet else "lose", self.name(sender), self.name(to)))
        if packet is None:
            return
        self.arrivals += 1
        number, message = packet
        if number == ACK:
            unacked = self.ways[to * self.size + sender].unacked
            while unacked and unacked[0][0] <= message:
                unacked.popleft()
            return
        if number > way.delivered:
            way.arrived[number] = message
        ready = []
        while way.delivered + 1 in way.arrived:
            way.delivered += 1
            ready.append(way.arrived.pop(way.delivered))
        self.acknowledge(to, sender, way.delivered)
        for message in ready:
            super().receive(to, sender, message)

    # The schedule and the trace.

    def next_event(self, line):
        self.event += 1
        if self.schedule is not None:
            self.schedule.append(line)

    def name(self, site):
        return "U" if site == 0 else "T%d" % site if site <= self.tms else "D%d" % (site - self.tms)

    def record(self, *words):
        self.trace.append(" ".join(map(str, (self.event,) + words)))

    def class_name(self, cls):
        return self.plans.whole.class_name(cls)

    def do(self, kind, event):
        if kind == RESEND:
            self.resend(*event)
            return
        self.next_event(event.words(self.plans.work.txns))
        super().do(kind, event)

    def redeclare(self):
        self.next_event("redeclare")
        super().redeclare()
