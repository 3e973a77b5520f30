"""How an attempt gets its rows: READY, then reducer steps of its queries, then all rows.

A reducer step takes the values of one use's column and leaves of another use the rows that have one of them; of the
steps that aren't done and whose source has fewer rows than their target the one with the fewest source rows is next.
Definition: crates/sdd_rules/specs/attempt/Exchange.antt, crates/sdd_semijoin/specs/Steps.antt.
"""
from typing import NamedTuple

from sdd.model.statements import Query, Same, relations_of
from sdd.reference.messages import Message


class Move(NamedTuple):
    """A reducer step: a column of a use gives the values for a column of another; uses by their numbers in the
    transaction, columns by their places."""
    source: int
    source_column: int
    target: int
    target_column: int
    step: tuple             # the number of the condition, and which side is reduced


def moves_of(txn):
    """For each query its moves, in the order of its conditions."""
    found, before = [], 1
    for statement in txn.statements:
        if isinstance(statement, Query):
            moves = []
            for k, cond in enumerate(statement.conds):
                if isinstance(cond, Same) and cond.left.part != cond.right.part:
                    for a, b, side in ((cond.right, cond.left, "left"), (cond.left, cond.right, "right")):
                        moves.append(Move(before + a.part, a.place, before + b.part, b.place, (k, side)))
            found.append(moves)
        before += len(relations_of(statement))
    return found


class Exchange:
    """What an attempt awaits from its modules, and what it is still to send."""

    def __init__(self, cls, time, txn, reads):
        """`reads` are pairs of a module and its READ."""
        self.cls, self.time = cls, time
        self.uses = {dm: {use.number for use in message.uses} for dm, message in reads}
        self.phase = "reading" if reads else "over"
        self.to_send = []       # pairs of a module and a message
        self.lacks = list(self.uses)
        self.counts = {}        # use, module -> rows that are held there
        self.queries = moves_of(txn)
        self.done = set()       # steps of the first query that is left
        self.move, self.union = None, set()
        self.values = self.rows = 0

    def modules_of(self, use):
        return [dm for dm, uses in self.uses.items() if use in uses]

    def count(self, use):
        return sum(n for (u, _), n in self.counts.items() if u == use)

    def ask(self, modules, kind, **fields):
        self.to_send = [(dm, Message(kind, self.cls, self.time, **fields)) for dm in modules]
        self.lacks = list(modules)

    def handed(self, dm, message):
        """A message of a module came; only answers to this attempt count."""
        if message.kind not in ("READY", "VALUES", "REDUCED", "ROWS") or (message.time, message.cls) != (self.time, self.cls):
            return
        self.counts.update({(use, dm): n for use, n in message.counts})
        self.union |= set(message.values)
        self.values += len(message.values)
        self.rows += len(message.rows)
        self.lacks = [d for d in self.lacks if d != dm]
        if not self.lacks:
            self.goes_on()

    def goes_on(self):
        """All answers of the phase came."""
        if self.phase == "fetching":
            self.reduce()
        elif self.phase == "shipping":
            self.phase = "over"
        elif self.phase != "over":
            self.next_move()

    def next_move(self):
        while self.queries:
            counts = [(self.count(m.source), m) for m in self.queries[0]
                      if m.step not in self.done and self.count(m.source) < self.count(m.target)]
            if counts:
                least = min(n for n, _ in counts)
                self.fetch(next(m for n, m in counts if n == least))
                return
            self.queries, self.done = self.queries[1:], set()
        self.phase = "shipping"
        self.ask(self.uses, "SHIP")

    def fetch(self, move):
        self.done.add(move.step)
        self.move, self.union, self.phase = move, set(), "fetching"
        modules = self.modules_of(move.source)
        self.ask(modules, "FETCH", use=move.source, column=move.source_column)
        if not modules:
            self.reduce()

    def reduce(self):
        self.phase = "reducing"
        modules = self.modules_of(self.move.target)
        self.values += len(self.union) * len(modules)
        self.ask(modules, "REDUCE", use=self.move.target, column=self.move.target_column, values=tuple(sorted(self.union)))
