"""The links between sites: numbered messages, packets in flight, acknowledgements, and rounds.

A message packet that arrives is acknowledged by the greatest k such that 1 to k arrived, and 1 to k are delivered.
Definition: crates/sdd_net/specs/Links.antt.
"""
from typing import NamedTuple

from sdd.model.workload import Event, are_linked, sites_of


class Ack(NamedTuple):
    """An acknowledgement in flight; a message packet is the message's number."""
    upto: int


class Way:
    """One direction between two sites."""

    def __init__(self):
        self.sent = []          # messages; the first has the number 1
        self.flight = []        # packets; the first has the place 1
        self.arrived = set()    # numbers of messages of which a packet came
        self.delivered = 0
        self.acked = 0          # the greatest acknowledgement that came back

    def put(self, message):
        self.sent.append(message)
        self.flight.append(len(self.sent))

    def packet(self, place):
        return self.flight[place - 1] if place <= len(self.flight) else None

    def unacked(self):
        return list(range(self.acked + 1, len(self.sent) + 1))


class Links:
    def __init__(self, cat):
        sites = sites_of(cat)
        self.ways = {(a, b): Way() for a in sites for b in sites if are_linked(a, b)}

    def deliver(self, a, b, place):
        """The packet that arrives at b, or None where there is none at the place."""
        way, back = self.ways[a, b], self.ways[b, a]
        packet = way.packet(place)
        if packet is None:
            return None
        del way.flight[place - 1]
        if isinstance(packet, Ack):
            back.acked = max(back.acked, packet.upto)
        else:
            way.arrived.add(packet)
            while way.delivered + 1 in way.arrived:
                way.delivered += 1
            back.flight.append(Ack(way.delivered))
        return packet

    def lose(self, a, b, place):
        way = self.ways[a, b]
        packet = way.packet(place)
        if packet is not None:
            del way.flight[place - 1]
        return packet

    def repeat(self, a, b, place):
        way = self.ways[a, b]
        packet = way.packet(place)
        if packet is not None:
            way.flight.append(packet)
        return packet

    def resend(self, a, b):
        way = self.ways[a, b]
        way.flight += way.unacked()
        return way.unacked() or None

    def is_quiet(self):
        return all(not way.flight and not way.unacked() for way in self.ways.values())

    def round(self):
        """The events of a round: what lies still is resent, then each packet in flight is delivered."""
        still = [(a, b) for (a, b), way in self.ways.items()
                 if way.unacked() and not way.flight and not self.ways[b, a].flight]
        events = [Event("resend", a=a, b=b) for a, b in still]
        for (a, b), way in self.ways.items():
            count = len(way.flight) + (len(way.unacked()) if (a, b) in still else 0)
            events += [Event("deliver", a=a, b=b, n=1)] * count
        return events
