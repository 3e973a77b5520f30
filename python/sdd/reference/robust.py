"""Whether the transactions of a workload, each any number of times, may run under snapshot isolation.

They are shown robust where none of them can be a pivot: one that misses the change of a first transaction, while a last
one, which conflicts link with the first, misses its own. Else short runs are carried out, and that one is told whose
replies and rows no order gives. Definition: docs/FORMATS.md, "What `sdd1_ask` prints";
crates/sdd_robust_laws/specs/Shown.antt, Runs.antt.
"""
from functools import cache, reduce
from itertools import islice
from operator import attrgetter, or_
from typing import NamedTuple

from sdd.reference.accesses import Accesses, are_of_one_row
from sdd.reference.meetings import Meetings, first_place, places
from sdd.reference.plain import apply, effect
from sdd.reference.short_runs import FirstRows, has_order

MAX_TRIED = 256         # candidates that are tried of each length
MAX_RUN_MEANWHILE = 3   # transactions that run while the pivot does, in a candidate


class Pivot(NamedTuple):
    """Transactions, by their places: the pivot reads what the missed one changes, and changes what the missing one reads."""
    pivot: int
    missed: int
    missing: int


def union(sets):
    return reduce(or_, sets, 0)


class Kinds:
    """The accesses of a workload's transactions, and what follows of two of them. Transactions are their places, sets of
    them are numbers (sdd.reference.meetings)."""

    def __init__(self, cat, work):
        accesses = Accesses(cat, work)
        self.all = [accesses.of(txn) for txn in work.txns]
        self.readers, self.changers, self.sure = (Meetings(self.all, attrgetter(x)) for x in ("reads", "changes", "sure"))
        self.conflicts = [self.conflicting(own) for own in self.all]
        self.ways_to = cache(self.neighbours)

    def conflicting(self, accesses):
        """Those that may change what these read or change, or read what these change."""
        return union([self.changers.of(x) for x in accesses if x.reads]
                     + [self.readers.of(x) | self.changers.of(x, any_column=True) for x in accesses if x.changes])

    def neighbours(self, some):
        return union(self.conflicts[place] for place in places(some))

    def beside(self, pivot):
        """Those that may run while the pivot does, and both commit: they change no row for sure that it changes for sure."""
        return (1 << len(self.all)) - 1 & ~union(self.sure.of(x, any_column=True) for x in self.all[pivot] if x.sure)

    def missed_and_missing(self, pivot, beside):
        """For each read of the pivot those that change what it reads, and those that read what it changes; but where both
        would be of one row. Without the reads that have none of either."""
        for read in filter(attrgetter("reads"), self.all[pivot]):
            missed = self.changers.of(read) & beside
            if missed:
                missing = beside & union(self.readers.of(x) for x in self.all[pivot] if x.changes and not are_of_one_row(read, x))
                if missing:
                    yield missed, missing

    def linked(self, start, beside):
        """Those beside the pivot to which conflicts lead from some."""
        reached = found = start
        while found:
            found = self.neighbours(found) & beside & ~reached
            reached |= found
        return reached

    def in_order_of_finding(self, start, beside):
        """Those to which conflicts lead from one: itself, those with which it conflicts, those with which the first of these does, .."""
        reached, left = [start], beside & ~(1 << start)
        for place in reached:
            yield place
            found = self.conflicts[place] & left
            reached += places(found)
            left &= ~found

    def pivot_of(self, pivot):
        """The first two by which the transaction is a pivot, or None."""
        beside = self.beside(pivot)
        for missed, missing in self.missed_and_missing(pivot, beside):
            linked = missed & self.linked(missing, beside)
            if linked:
                start = first_place(linked)
                return Pivot(pivot, start, next(i for i in self.in_order_of_finding(start, beside) if missing >> i & 1))
        return None

    def first_pivot(self):
        return next(filter(None, map(self.pivot_of, range(len(self.all)))), None)

    def candidates(self, length):
        """Runs of so many transactions while one more runs, as places with the pivot first, in their order."""
        for pivot in range(len(self.all)):
            beside = self.beside(pivot)
            pairs = list(self.missed_and_missing(pivot, beside))
            for first in places(union(missed for missed, _ in pairs)):
                last = union(missing for missed, missing in pairs if missed >> first & 1)
                yield from ((pivot, *path) for path in self.paths((first,), beside, last, length))

    def paths(self, path, beside, last, length):
        """Paths of conflicts that go on from one, through transactions that differ, to one of the last."""
        if len(path) == length:
            if last >> path[-1] & 1:
                yield path
            return
        further = self.conflicts[path[-1]] & beside & ~union(1 << place for place in path)
        if len(path) == length - 2:     # those from which the last step can be made
            further &= self.ways_to(last)
        for place in places(further & last if len(path) == length - 1 else further):
            yield from self.paths(path + (place,), beside, last, length)


# A candidate is carried out: the first transaction begins, the others run one after the other, the first one ends.

def is_counterexample(cat, rows, txns):
    """Whether all of them commit, and no order gives their replies and the rows at the end."""
    pivot, *others = txns
    reply, changes = effect(cat, rows, pivot)
    replies, database = [reply], dict(rows)
    for txn in others:
        reply, own = effect(cat, database, txn)
        if own.keys() & changes.keys():
            return False
        apply(database, own)
        replies.append(reply)
    apply(database, changes)
    return all(reply.kind == "ok" for reply in replies) and not has_order(cat, rows, list(zip(txns, replies)), database)


def counterexample(cat, work, kinds):
    """The first candidate whose run no order explains, shorter ones first; None where there is none among those tried."""
    first = FirstRows(cat, work)
    tried = (places for length in range(1, MAX_RUN_MEANWHILE + 1) for places in islice(kinds.candidates(length), MAX_TRIED))
    return next((some for some in tried if is_counterexample(
        cat, first.of(x for place in some for x in kinds.all[place]), [work.txns[place] for place in some])), None)


def robust_work_text(cat, work):
    """The answer, with a run or a pivot where the workload isn't shown robust."""
    kinds = Kinds(cat, work)
    pivot = kinds.first_pivot()
    if pivot is None:
        return "snapshot isolation: robust\n"
    run = counterexample(cat, work, kinds)
    if run is None:
        return "snapshot isolation: unknown\npivot %s reads what %s changes, and changes what %s reads\n" % tuple(
            work.txns[n].name for n in pivot)
    first, *others = (work.txns[n].name for n in run)
    lines = ["snapshot isolation: not robust", "begin " + first, *("run " + name for name in others), "end " + first]
    return "".join(line + "\n" for line in lines)
