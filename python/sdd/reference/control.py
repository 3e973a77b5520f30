"""Transaction control: a committer, site 0, and backups that take over, so that all writes are made or none.

The lowest site that hasn't stopped leads once it has learnt that all below it have; what it sends next is the first of
four things that fits. Definition: docs/FORMATS.md, "The control file"; crates/sdd_backups/specs, sdd_control/specs.
"""
from sdd.model.words import are_free, is_free, must, known, number_between, read_lines

MAX_EVENTS = 2**18
EVENTS = {"step": 1, "deliver": 2, "stop": 1}


class Reader:
    """A control file, line by line."""

    def __init__(self):
        self.sites = self.writes = None
        self.events, self.ended = [], False

    def take(self, key, words):
        if self.sites is None:
            must("BadLine", key == "control" and len(words) == 2 and are_free(words), key, "the first line is `control B W`: how many backups, and writes")
            self.sites = 1 + known("BadNumber", number_between(words[0], 1, 8), words[0], "{} isn't between 1 and 8")
            self.writes = known("BadNumber", number_between(words[1], 1, 64), words[1], "{} isn't between 1 and 64")
        elif key == "end":
            must("BadLine", not words)
            self.ended = True
        else:
            must("BadLine", key in EVENTS, key, "no line begins with {}", [*EVENTS, "end"])
            must("BadLine", len(words) == EVENTS[key] and all(map(is_free, words)))
            sites = [known("BadNumber", number_between(w, 0, 2**32 - 1), w, "{} is no number of a site") for w in words]
            unknown = next((w for w, i in zip(words, sites) if i >= self.sites), None)
            must("BadEvent", unknown is None, unknown, "there are sites 0 to %d" % (self.sites - 1))
            must("BadEvent", len(set(sites)) == len(sites), words[-1], "no link goes from a site to itself")
            must("TooMany event", len(self.events) < MAX_EVENTS)
            self.events.append((key, sites))


class Control:
    """The sites, and the messages on their links."""

    def __init__(self, sites, writes):
        self.sites, self.writes = range(sites), range(1, writes + 1)
        self.links = {(i, j): [] for i in self.sites for j in self.sites}
        self.stopped, self.finished = set(), set()
        self.gone = {i: set() for i in self.sites}      # which sites it has learnt to have stopped
        self.told = {i: set() for i in self.sites}      # to which it told its value
        self.ok = {i: set() for i in self.sites}        # which answered
        self.made = {i: set() for i in self.sites}      # which numbers it wrote
        self.took = {i: None for i in self.sites}       # the value that it took last
        self.senders = {i: set() for i in self.sites}   # of whom it took one

    def leads(self, i):
        return self.gone[i] >= set(range(i))

    def value(self, i):
        if self.took[i] is not None:
            return self.took[i]
        return "all" if i == 0 else "none" if self.leads(i) else "unknown"

    def step(self, i):
        higher = [j for j in self.sites if j > i]
        if i in self.stopped or i in self.finished or not self.leads(i):
            return "nothing"
        untold = [j for j in higher if j not in self.told[i] | self.gone[i]]
        if untold:
            self.told[i].add(untold[0])
            self.links[i, untold[0]].append(self.value(i))
            return "tell %d %d %s" % (i, untold[0], self.value(i))
        if not set(higher) <= self.ok[i] | self.gone[i]:
            return "nothing"
        left = [k for k in self.writes if k not in self.made[i]]
        if self.value(i) == "all" and left:
            self.made[i].add(left[0])
            return "write %d %d" % (i, left[0])
        self.finished.add(i)
        return "finish %d %s" % (i, self.value(i))

    def deliver(self, i, j):
        if not self.links[i, j]:
            return "nothing"
        message = self.links[i, j].pop(0)
        if j in self.stopped:
            return "dropped"
        if message == "gone":
            self.gone[j].add(i)
            return "gone %d %d" % (j, i)
        if message == "ok":
            self.ok[j].add(i)
            return "ok %d %d" % (j, i)
        if any(sender > i for sender in self.senders[j]):
            return "ignored %d" % j
        self.took[j] = message
        self.senders[j].add(i)
        self.links[j, i].append("ok")
        return "value %d %s" % (j, message)

    def stop(self, i):
        if i in self.stopped:
            return "nothing"
        self.stopped.add(i)
        for j in self.sites:
            if j != i:
                self.links[i, j].append("gone")
        return "stop %d" % i


def read_control(data):
    """What a control file says; a Fault tells its first fault."""
    reader = Reader()
    read_lines(data, reader.take, lambda: reader.ended)
    return reader


def control_text(data):
    reader = read_control(data)
    control = Control(reader.sites, reader.writes)
    acts = {"step": control.step, "deliver": control.deliver, "stop": control.stop}
    lines = ["%d %s" % (n, acts[key](*sites)) for n, (key, sites) in enumerate(reader.events, 1)]
    for i in control.sites:
        stands = "stopped" if i in control.stopped else control.value(i) + (" finished" if i in control.finished else "")
        lines.append("site %d %s" % (i, stands))
    lines += ["writes %d" % len(set().union(*control.made.values())), "end"]
    return "".join(line + "\n" for line in lines)
