"""A reader of the text of a run's events, by its two rules alone: what a page has to show at an event.

    reader = Reader(first)
    for line in lines:
        reader.apply(line)

Rows of copies are kept where the places of the keys in the rows of each fragment are given.
"""
import re
from collections import defaultdict

VALUES = re.compile(r'"(?:[^"\\]|\\.)*"|[^ ]+')


class Contradiction(Exception):
    """A text that can't be one of a run."""


class Reader:
    def __init__(self, first, keys=None):
        self.event, self.bodies = 0, {}
        self.flight, self.queues, self.pipes = defaultdict(list), defaultdict(list), defaultdict(list)
        self.sent, self.acked, self.delivered, self.handed = (defaultdict(int) for _ in range(4))
        self.passed, self.sites = {}, {}
        self.copies = {}                # site and fragment -> key -> row
        for x in first["copies"] if keys is not None else ():
            self.copies[x["at"], x["fragment"]] = {VALUES.findall(row)[keys[x["fragment"]]]: row for row in x["rows"]}

    def apply(self, line):
        words = line["do"].split(" ")
        self.event = line["event"]
        if "took" in line:
            self.take(line, tuple(words[1:3]), int(words[3]))
        if "delivered" in line:
            self.delivered[words[1], words[2]] = line["delivered"]
        if "acked" in line:
            self.acked[words[2], words[1]] = line["acked"]
        for a, b, n in line.get("handed", ()):
            self.handed[a, b] = n
        for a, b, put in line.get("put", ()):
            self.put((a, b), put)
        for x in line.get("queues", ()):
            self.queues[x["class"]] = (self.queues[x["class"]] + x.get("in", []))[x.get("out", 0):]
        for x in line.get("pipes", ()):
            place = x["at"], x["class"]
            self.pipes[place] = (self.pipes[place] + x.get("in", []))[x.get("out", 0):]
            self.passed[place] = x.get("passed", self.passed.get(place))
        for at, fragment, key, row in line.get("rows", ()) if self.copies else ():
            self.copies[at, fragment].pop(key, None)
            if row is not None:
                self.copies[at, fragment][key] = row
        for x in line.get("sites", ()):
            self.sites[x["at"]] = x

    def take(self, line, link, place):
        flight = self.flight[link]
        if place > len(flight) or flight[place - 1] != line["took"]:
            raise Contradiction("event %d takes what isn't at that place" % self.event)
        del flight[place - 1]

    def put(self, link, reported):
        for x in reported:
            if isinstance(x, dict) and "n" in x:
                self.bodies[link + (x["n"],)] = x
                self.sent[link] = x["n"]
                x = x["n"]
            self.flight[link].append(x)

    def label(self, link, packet):
        """A packet as a page names it."""
        if isinstance(packet, dict):
            return "ack %d" % packet["ack"]
        reported = self.bodies[link + (packet,)]
        return reported["kind"] + (" %d" % reported["time"] if "time" in reported else "")
