"""Histories: what a database replied to transactions, and what the transactions come to on one plain database.

Nothing here is trusted for a yes: an order is found by whatever means, and judged by `sdd1 verify`.
"""
from typing import NamedTuple

from sdd.judge.effect import effect
from sdd.judge.touched import keys_near, rows_near
from sdd.model.catalogue import Catalogue, Fragment, Relation
from sdd.model.statements import Query
from sdd.model.words import GREATEST, LEAST

COMMITTED, ABORTED, UNKNOWN = "committed", "aborted", "unknown"
NEVER = float("inf")


class Table(NamedTuple):
    name: str
    columns: tuple              # names
    kinds: tuple                # of each column `int` or `text`
    key: int                    # the place of the key among the columns, from 0

    def key_of(self, row):
        return row[self.key]


def catalogue_of(tables):
    """The tables as a catalogue, each in one fragment."""
    return Catalogue(1, 1, [Relation(x.name, list(zip(x.columns, x.kinds)), x.columns[x.key]) for x in tables.values()],
                     [Fragment(x.name, x.name, LEAST, GREATEST, [1]) for x in tables.values()])


class Write(NamedTuple):
    """A row that a transaction left behind, by one statement."""
    relation: str
    key: int
    row: tuple                  # None where it was deleted
    at: float                   # when its statement was answered; None where nobody tells


class Recorded(NamedTuple):
    """A transaction of a history."""
    name: str
    outcome: str
    session: str                # None where nobody tells
    begin: float                # when its client began it; minus infinity where nobody tells
    end: float                  # when the answer to its commit came; where none came or nobody tells, when it was last heard of
    until: float                # when it was over; infinity where nobody knows
    lines: tuple                # its statements as a workload has them
    txn: object                 # the same, read: a Txn
    replies: tuple              # of each query its rows, ascending and each once
    writes: tuple
    own_faults: tuple = ()      # where it reads another row than it wrote itself, in words
    blind: bool = False         # whether one of its changes doesn't tell which rows it met


class History:
    """The tables with their first rows and those that are left, and the transactions.

    `done` has those that may be part of an order: first the `sure` ones, which are in every order, then those of unknown outcome whose
    rows nobody saw.
    """

    def __init__(self, about, tables, rows, transactions, left, source="history"):
        self.about, self.tables, self.rows, self.left, self.source = about, tables, rows, left, source
        self.transactions = transactions
        self.catalogue = catalogue_of(tables)
        self.aborted = [x for x in transactions if x.outcome == ABORTED]
        sure, may_be = self.by_what_was_seen()
        self.assumed = [x for x in sure if x.outcome == UNKNOWN]
        self.done = sorted(sure, key=lambda x: (x.end, x.begin)) + sorted(may_be, key=lambda x: (x.end, x.begin))
        self.sure = len(sure)
        self.near = [keys_near(x.txn.statements, self.catalogue) for x in self.done]
        self.blind = any(x.blind for x in transactions)
        self.timed = any(x.begin > -NEVER for x in self.done)

    def by_what_was_seen(self):
        """The transactions that surely committed, and those of unknown outcome whose rows nobody saw."""
        sure = [x for x in self.transactions if x.outcome == COMMITTED]
        may_be = [x for x in self.transactions if x.outcome == UNKNOWN]
        rows = {(name, key): [row] for name, mine in self.rows.items() for key, row in mine.items()}
        for w in (w for x in self.transactions for w in x.writes) if may_be else ():
            rows.setdefault((w.relation, w.key), []).append(w.row)
        seen = [(name, dict(enumerate(row))) for name, mine in self.left.items() for row in mine.values()]
        seen += [part for x in sure for part in parts_listed(self.tables, x)] if may_be else []
        while seen and may_be:
            new = [x for x in may_be if any(self.saw(w, rows, seen) for w in x.writes)]
            seen = [part for x in new for part in parts_listed(self.tables, x)]
            sure, may_be = sure + new, [x for x in may_be if x not in new]
        return sure, may_be

    def saw(self, w, rows, seen):
        """Whether one of the parts of rows that were seen is of this write, and can be of no other row with its key."""
        if w.row is None:
            return False
        for name, listed in seen:
            if name == w.relation and listed.get(self.tables[name].key) == w.key and has(w.row, listed):
                if sum(row is not None and has(row, listed) for row in rows[name, w.key]) == 1:
                    return True
        return False

    def effect(self, place, tables):
        """The reply and the changes of the transaction at a place of `done`, on these tables."""
        return effect(self.done[place].txn, rows_near(self.near[place], tables), self.catalogue)

    def explain(self, place, tables):
        """The changes of a transaction, if it gives the reply on these tables that it got; else None."""
        reply, changes = self.effect(place, tables)
        return changes if reply.kind == "ok" and reply.queries == self.done[place].replies else None

    def first_tables(self):
        return {name: dict(rows) for name, rows in self.rows.items()}

    def are_left(self, tables):
        """Whether these rows are left, of the tables of which that is told."""
        return all(tables[name] == rows for name, rows in self.left.items())

    def explains(self, order):
        """Whether one plain database that runs the order gives all replies and the rows left."""
        return self.difference(order, self.rows, self.left) is None

    def difference(self, order, first, left):
        """The first thing that one plain database which begins with these rows says otherwise along the order, in words; or None."""
        tables = {name: dict(rows) for name, rows in first.items()}
        for place in order:
            reply, changes = self.effect(place, tables)
            if reply.kind != "ok":
                return "%s would get the reply %s" % (self.done[place].name, reply.kind)
            for (query, got), wanted in zip(queries_of(self.done[place]), reply.queries):
                if got != wanted:
                    columns = [self.tables[query.relations[c.part]].columns[c.place] for c in query.columns]
                    return "%s %s" % (self.done[place].name, unlike(columns, got, wanted, "found", "didn't find"))
            apply(tables, changes)
        for name, rows in left.items():
            if tables[name] != rows:
                got, wanted = tuple(rows.values()), tuple(tables[name].values())
                return "in the end %s %s" % (name, unlike(self.tables[name].columns, got, wanted, "has", "hasn't"))
        return None

    def is_strict(self, order):
        """Whether what was over before another began stands before it."""
        latest = -NEVER
        for k in order:
            if self.done[k].until < latest:
                return False
            latest = max(latest, self.done[k].begin)
        return True

    def sessions(self):
        """The places of the transactions of each session, in its order."""
        made = {}
        for k in sorted(range(len(self.done)), key=lambda k: (self.done[k].begin, self.done[k].end)):
            if self.done[k].session is not None:
                made.setdefault(self.done[k].session, []).append(k)
        return made


def queries_of(x):
    """Pairs of a query of a transaction and the rows that it replied."""
    return zip((s for s in x.txn.statements if isinstance(s, Query)), x.replies)


def has(row, listed):
    return all(row[c] == value for c, value in listed.items())


def parts_listed(tables, x):
    """Pairs of a table and the columns of a row of it that a transaction's queries list."""
    for s, rows in queries_of(x):
        for part, relation in enumerate(s.relations):
            places = {c.place: k for k, c in enumerate(s.columns) if c.part == part}
            for row in rows:
                yield relation, {c: row[k] for c, k in places.items()}


def unlike(columns, got, wanted, has, lacks):
    """In which rows a reply differs from the one that it should be, in words."""
    more, less = ([x for x in a if x not in b] for a, b in ((got, wanted), (wanted, got)))
    if more and less:
        return "%s %s in place of %s" % (has, few(columns, more), few(columns, less))
    return "%s %s, which isn't there" % (has, few(columns, more)) if more else "%s %s" % (lacks, few(columns, less))


def few(columns, rows, most=2):
    shown = ["(%s)" % ", ".join("%s %s" % x for x in zip(columns, row)) for row in rows[:most]]
    return " and ".join(shown + ["%d more" % (len(rows) - most)] * (len(rows) > most))


def apply(tables, changes):
    """Applies changes; what undoes them."""
    undo = []
    for (relation, key), row in changes.items():
        undo.append((relation, key, tables[relation].get(key)))
        put(tables, relation, key, row)
    return undo


def put(tables, relation, key, row):
    if row is None:
        tables[relation].pop(key, None)
    else:
        tables[relation][key] = row
