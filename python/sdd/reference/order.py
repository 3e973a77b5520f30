"""Which of two committed transactions precedes the other, and the serial order.

Again and again the transaction with the least timestamp is taken of those whose predecessors are all taken. Definition:
crates/sdd_links/specs/Precedence.antt, crates/sdd_order/specs/SerialOrder.antt; docs/GUARANTEES.md, "Why there is a
serial order".
"""
from typing import NamedTuple

from sdd.reference.breaking import is_broken


class Committed(NamedTuple):
    number: int
    cls: int
    time: int
    reads: dict             # fragment -> the module at which it is read
    writes: set             # fragments that it changes
    seen: dict              # fragment -> the numbers of transactions that were applied there before it was answered


def committed_in(cat, records):
    """The committed transactions, in the order of their Commits."""
    starts, applied, seen, found = {}, {}, {}, []
    for r in records:
        if r.kind == "start":
            starts[r.txn, r.attempt] = r
        elif r.kind == "apply":
            applied.setdefault(r.dm, set()).add(r.txn)
        elif r.kind == "answer":
            seen[r.txn, r.attempt, r.dm] = frozenset(applied.get(r.dm, ()))
        elif r.kind == "commit":
            start = starts[r.txn, r.attempt]
            reads = {f: cat.read_at(start.cls, f) for use in start.uses for f in use.fragments}
            found.append(Committed(
                r.txn, start.cls, start.time, reads, {cat.fragment_of(*item) for item in r.changes},
                {f: seen[r.txn, r.attempt, dm] for f, dm in reads.items()}))
    return found


def precedes(x, y):
    if x.cls == y.cls and x.time < y.time:
        return True
    if x.time < y.time and x.writes & y.writes:
        return True
    if any(f in y.writes and y.number not in x.seen[f] for f in x.reads):       # x misses what y changes
        return True
    return any(f in x.writes and x.number in y.seen[f] for f in y.reads)        # y sees what x changes


def serial_order(cat, records):
    """The numbers of the committed transactions. Where none is ready, which can be where a rule is broken, the one with
    the least timestamp is taken."""
    left = committed_in(cat, records)
    if is_broken("commit-order"):
        return [x.number for x in left]
    before = {y.number: {x.number for x in left if x is not y and precedes(x, y)} for y in left}
    order, left = [], sorted(left, key=lambda x: x.time)
    while left:
        ready = next((x for x in left if not before[x.number]), left[0])
        left.remove(ready)
        order.append(ready.number)
        for y in left:
            before[y.number].discard(ready.number)
    return order
