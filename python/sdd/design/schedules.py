"""Schedules for the submissions of a workload: drawn ones, and all of them where they are few.

    load = read_load("examples/bridge/workload")
    events = draw_schedule(load, list_links(catalogue, load), random.Random(1), Manner())

A schedule keeps what the workload submits, and the ticks, downs, ups, settles and further lists of
classes between, in their order. Its deliveries, losses, repetitions and resends are replaced by others.
"""
import random
from typing import NamedTuple

from sdd.model.files import BadInput, text_of

KEPT = {"submit", "tick", "down", "up", "settle", "redeclare"}
MOST_EVENTS = 262144
TAIL = 40                   # rounds after the last submission, and as many again as lie before it, for what is queued then


class Load(NamedTuple):
    head: list              # the lines before the events
    events: list            # those of the events that stay, without the settles after the last one
    sites: dict             # transaction -> its transaction module

    def text(self, events):
        return "\n".join(self.head + events + ["end", ""])

    def submitted(self):
        return [x.split(" ")[1] for x in self.events if x.startswith("submit ")]


class Manner(NamedTuple):
    """How schedules are drawn."""
    pace: float = 4         # rounds of deliveries between two submissions, on the average
    faults: float = 0       # the part of the events that lose, repeat or resend


def read_load(path):
    head, events, sites, inside = [], [], {}, False
    for line in text_of(path).split("\n"):
        words = line.split(" ")
        if words[0] == "txn" and len(words) == 3 and not inside:
            sites[words[1]] = words[2]
        if not inside and words[0] in ("txn", "list"):
            inside = True
        elif inside and words == ["done"]:
            inside = False
        elif not inside and words[0] != "row":
            events.append(line)
            continue
        head.append(line)
    if "end" not in events:
        raise BadInput("%s: no line `end`: is this a workload?" % path)
    kept = [x for x in events if x.split(" ")[0] in KEPT]
    while kept and kept[-1] == "settle":
        kept.pop()
    return Load(head, kept, sites)


def list_links(catalogue, load, undeclared):
    """The links that messages of this load can use, both ways; those of U where it has work."""
    modules = {x.site for x in catalogue.classes} | {load.sites[x] for x in load.submitted() if x in load.sites}
    stores = ["D%d" % (k + 1) for k in range(catalogue.dms)]
    pairs = [(t, d) for t in sorted(modules) for d in stores]
    if undeclared:
        pairs += [("U", "T%d" % (k + 1)) for k in range(catalogue.tms)] + [("U", d) for d in stores]
    return [x for a, b in pairs for x in ((a, b), (b, a))]


FORMS = [                   # of 20 packets that arrive two overtake the one before them
    ("deliver %s %s 1", 18, 0), ("deliver %s %s 2", 2, 0), ("lose %s %s 1", 0, 5), ("repeat %s %s 1", 0, 5), ("resend %s %s", 0, 10)]


def list_choices(links, rng, manner):
    """The events that may come next and their weights. Some links are slower than others, which ones is drawn too."""
    events, weights = [], []
    for link in links:
        pace = rng.choice([1, 2, 2, 4])
        for form, usual, fault in FORMS:
            events.append(form % link)
            weights.append(pace * (usual * (1 - manner.faults) + fault * manner.faults))
    return events, weights


def draw_schedule(load, links, rng, manner):
    """One schedule."""
    possible, weights = list_choices(links, rng, manner)
    count = max(1, len(load.submitted()))
    room = MOST_EVENTS - len(load.events) - 1
    tail = min(int((TAIL + count * manner.pace) * len(links)), room // 2)
    between = min(manner.pace * len(links), (room - tail) / count / 2)
    events = []
    for line in load.events:
        events.append(line)
        if line.startswith("submit "):
            events += rng.choices(possible, weights, k=rng.randint(0, int(2 * between)))
    return events + rng.choices(possible, weights, k=tail) + ["settle"]


class Walks:
    """The walks on which each step submits the next transaction or delivers the first packet of a link.

    `flying(events, links)` gives those of the links on which a packet is in flight after these events.
    """

    def __init__(self, submits, links, flying):
        self.submits, self.links, self.flying = submits, links, flying

    def steps(self, walk):
        """The longer walks; a walk is its events and how many of them submit."""
        events, done = walk
        longer = [(events + ["deliver %s %s 1" % x], done) for x in self.flying(events, self.links)] if events else []
        if done < len(self.submits):
            longer.append((events + [self.submits[done]], done + 1))
        return longer

    def estimate(self, rng, most):
        """How many walks there are, by the choices along a drawn one; or a number above `most`."""
        walk, number = ([], 0), 1
        while number <= most:
            longer = self.steps(walk)
            if not longer:
                break
            walk, number = rng.choice(longer), number * len(longer)
        return number


def enumerate_schedules(load, links, flying, most):
    """All schedules in which packets arrive in their order on each link; None where they are more than `most`."""
    if any(not x.startswith("submit ") for x in load.events):
        return None
    walks = Walks(load.events, links, flying)
    if min(walks.estimate(random.Random(k), 10 * most) for k in range(5)) > 3 * most:
        return None
    whole, front, looks = [], [([], 0)], 0
    while front:
        walk = front.pop()
        longer = walks.steps(walk)
        front += longer
        looks += 1
        if not longer:
            whole.append(walk[0] + ["settle"])
        if len(whole) > most or looks > 10 * most:
            return None
    return whole
