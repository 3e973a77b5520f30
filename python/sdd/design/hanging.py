"""On which modules that are down a pending transaction may hang, and through which classes.

    hanging = Hanging(catalogue)
    hanging.ways("reader", ["D2"])      # {"D2": "reader waits for writer; .. ; other reads at D2"}

By the rules of `sdd needs` (docs/FORMATS.md, "What `sdd1_ask` prints"). "May": which transactions are under way decides.
"""
from collections import Counter, deque
from typing import NamedTuple

from sdd.reference.graph import protocol_table
from sdd.reference.plain import class_for

UNDECLARED = {"T": "%s has to hold for an undeclared transaction", "D": "an undeclared transaction reads at %s"}
NO_WAY = "nothing is down that its class needs: an undeclared transaction isn't done"


class Hanging:
    def __init__(self, cat):
        self.names = {c: one.name for c, one in enumerate(cat.classes, 1)}
        self.home = {c: "T%d" % one.tm for c, one in enumerate(cat.classes, 1)}
        self.at = {c: {dm for _, dm in one.reads} for c, one in enumerate(cat.classes, 1)}
        self.waits = {c: [] for c in self.names}        # for which classes each waits, in the order of the table
        for entry in protocol_table(cat):
            edge = entry.edge
            if edge.kind == "diagonal" and entry.protocol != "P1" and edge.j not in self.waits[edge.i]:
                self.waits[edge.i].append(edge.j)

    def steps(self, task):
        """What a task needs besides modules: pairs of a task and why."""
        what, c = task
        if what == "passing":
            yield ("attempt", c), None
        else:
            for j in self.waits[c]:
                yield ("passing", j), "%s waits for %s" % (self.names[c], self.names[j])
        for reader, others in self.waits.items():
            if c in others and (what == "passing" or self.at[reader] & self.at[c]):
                for m in others:
                    yield ("passing", m), "%s%s waits for %s, and may hold back what %s writes" % (
                        "" if what == "passing" else "a read of %s queues behind its own writes: " % self.names[c],
                        self.names[reader], self.names[m], self.names[c])

    def modules(self, c):
        """The modules at which an attempt of the class is under way, each with what it does there, in words."""
        return {self.home[c]: "%s is at home at %s" % (self.names[c], self.home[c]),
                **{"D%d" % dm: "%s reads at D%d" % (self.names[c], dm) for dm in sorted(self.at[c])}}

    def ways(self, name, down):
        """For each of these modules that an attempt of the class may need, the shortest way there, in words."""
        if name == "-":
            return {at: UNDECLARED[at[0]] % at for at in down}
        begin = next((("attempt", c) for c, one in self.names.items() if one == name), None)
        reached, todo, found = {begin: []}, deque([begin] if begin else []), {}
        while todo:
            task = todo.popleft()
            for at, why in self.modules(task[1]).items() if task[0] == "attempt" else ():
                if at in down:
                    found.setdefault(at, "; ".join(reached[task] + [why]))
            for other, why in self.steps(task):
                if other not in reached:
                    reached[other] = reached[task] + ([why] if why else [])
                    todo.append(other)
        return found


class Pending(NamedTuple):
    """Transactions of a group that aren't committed at the end of some runs."""
    who: str
    cls: str
    count: int
    runs: int
    ways: dict              # module -> why they may hang on it


def down_after(events):
    """The modules that are down after these lines of a schedule, in the order of sites."""
    last = {line.split(" ")[1]: line.split(" ")[0] for line in events if line.startswith(("down ", "up "))}
    return sorted((at for at, word in last.items() if word == "down"), key=place_of)


def place_of(at):
    """Transaction modules come before data modules."""
    return at[0] == "D", int(at[1:])


def collect_pending(cat, work, events, observed, group_of):
    """What isn't committed at the end, most frequent first; GROUP_OF gives the group of a transaction and its class."""
    down, classes = down_after(events), {txn.name: cat.class_name(class_for(cat, txn)) for txn in work.txns}
    if not down or work.lists:      # the table is that of the first list
        return []
    whole, hanging = Counter(), Hanging(cat)
    for run in observed:
        for name in run.pending:
            cls = run.transactions[name].cls or classes[name]
            whole[group_of(name, cls), cls] += 1
    return [Pending(who, cls, count, len(observed), hanging.ways(cls, down)) for (who, cls), count in whole.most_common()]


def print_pending(designs):
    for x in designs:
        if x.pending:
            print("\n%s: not committed at the end of %d runs, and on which module that is down it may hang" % (x.name, x.runs))
        for one in x.pending:
            ways = ["%s (%s)" % (at, one.ways[at]) for at in sorted(one.ways, key=place_of)] or [NO_WAY]
            print("  %s: %d; %s" % (one.who, one.count, ", ".join(ways)))
