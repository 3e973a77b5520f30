"""What stands where in the picture of a run: columns for events, lanes with rows for what happened."""
from typing import NamedTuple

MOST_ROWS = 3               # of transactions that wait for their turn, with a line each
WAITING, SERVED = 0, 1      # the groups of a class's lane
READS, APPLIES, PASSES, NETWORK = 0, 1, 2, 3    # those of a data module's
COLOURS = ["#1f77b4", "#d9730d", "#2a9134", "#8e44ad", "#b8860b", "#008b8b", "#c2185b", "#5d6d1e", "#6b4f3f", "#3949ab"]


class Columns:
    """The events that have a record or a mark, each with its place from left to right."""

    def __init__(self, events, left):
        self.all = events
        self.step = max(17, min(64, 1000 / max(1, len(self.all))))
        self.place = {event: k for k, event in enumerate(self.all)}
        self.left, self.right = left, left + self.step * max(1, len(self.all))

    def has(self, event):
        return event in self.place

    def x(self, event):
        """The middle of an event's column; one outside of the window has its edge."""
        if event in self.place:
            return self.left + self.step * (self.place[event] + 0.5)
        return self.left if not self.all or event < self.all[0] else self.right


class Item(NamedTuple):
    """What stands in one row of a lane."""
    left: float
    right: float            # with its label
    draw: object            # the shapes, of the row's middle
    anchors: dict = {}      # name -> x, where lines to other lanes begin and end
    short: object = None    # what stands in its place, if anything, where there are too many rows


class Lane:
    def __init__(self, title, site=""):
        self.title, self.site, self.groups = title, site, {}

    def add(self, group, item):
        self.groups.setdefault(group, []).append(item)

    def rows(self):
        """The rows of each group, one group below the other."""
        rows = []
        for group in sorted(self.groups):
            mine = packed(self.groups[group])
            if len(mine) > MOST_ROWS and group == WAITING:
                mine = packed([x.short for x in self.groups[group] if x.short])
            rows += mine
        return rows or [[]]


def packed(items):
    """The items in as many rows as it takes that none covers the next."""
    rows = []
    for item in sorted(items, key=lambda x: x.left):
        row = next((x for x in rows if x[-1].right < item.left), None)
        if row is None:
            rows.append([item])
        else:
            row.append(item)
    return rows


class Trace:
    """What the records say of each transaction; those that are at work in the window have the first colours."""

    def __init__(self, report, first, last):
        self.report = report
        self.submits = {x.txn: x for x in report.records if x.kind == "submit"}
        self.starts, self.commits = report.attempts(), report.commits()
        ends = {x.txn: x.event for x in report.records if x.txn}
        seen = [x.txn for (_, k), x in self.starts.items() if k == 1 and x.event <= last and ends[x.txn] >= first]
        in_turn = dict.fromkeys(seen + list(self.submits))
        self.colours = {x: COLOURS[k % len(COLOURS)] for k, x in enumerate(in_turn)}
        self.waits = {(x.txn, x.attempt, x.site): x for x in report.records if x.kind == "wait"}
        self.ends = {(x.txn, x.attempt, x.site): x for x in report.records if x.kind in ("answer", "reject")}
        self.rejects = {(x.txn, x.attempt): x for x in report.records if x.kind == "reject"}
        self.pending = {x.txn: x for x in report.pending}

    def colour(self, txn):
        return self.colours.get(txn, "#555")

    def class_of(self, txn):
        if (txn, 1) in self.starts:
            return self.starts[txn, 1].cls
        reported = self.pending.get(txn)
        return reported.words[0] if reported and reported.kind == "queued" else "-"

    def held(self, record):
        """Whether changes were held behind a read: it waited for their class, up to a time not above
        theirs, and is answered or rejected just before they are applied."""
        start = self.starts.get((record.txn, self.commits[record.txn].attempt))
        for x in self.report.records[record.place - 1::-1] if record.place else []:
            if x.event != record.event:
                return False
            if x.kind in ("answer", "reject") and x.site == record.site:
                wait = self.waits.get((x.txn, x.attempt, x.site))
                if wait and any(c == start.cls and time <= start.time for c, time in wait.waits):
                    return True
        return False
