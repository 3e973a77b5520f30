"""What each transaction of a workload does at which module, worked out once for all its runs.

    plans = Plans(cat, work)        # both as the reference reads them
    plan = plans.plan(number, era)

A plan has the class that the transaction gets in that list of classes, the READ of each data module with its
conditions, the joins of its queries, and how its changes follow from the rows that it reads.
"""
from typing import NamedTuple

from sdd.model import statements
from sdd.reference import exchange, graph, plain, redeclare

MOST_ROWS = plain.MAX_REPLY_ROWS


class Use(NamedTuple):
    """What a READ reads of one use at one module."""
    number: int
    fragments: tuple
    key: int                # the one key that its conditions leave, or None
    conds: tuple            # triples of a column's place, a test and a value


class Read(NamedTuple):
    module: int             # of the data module
    uses: tuple
    conds: tuple            # triples of a class, whether it is by P3, and the fragments


class Plan(NamedTuple):
    number: int
    name: str
    tm: int
    cls: int
    reads: tuple
    changes: tuple          # put: (None, fragment, key, row); else (use, place of the key, assigns or None to delete)
    moves: list             # of each query the steps that reduce it (reference/exchange.py)
    queries: tuple          # of each query: its columns, the numbers of its uses, its conditions


class Plans:
    """The catalogue by numbers, and the plans of its transactions."""

    def __init__(self, cat, work):
        self.cat, self.work, self.whole = cat, work, work.all_classes(cat)
        self.eras = redeclare.eras(cat, work.lists)
        tables = [graph.protocol_table(era) for era in self.eras]
        self.table, self.pairs = tables[0], [graph.diagonals_by_pair(x) for x in tables]
        self.made = {}
        self.copies = {f.name: tuple(sorted(f.copies)) for f in cat.fragments}
        self.homes = [0] + [c.tm for c in self.whole.classes]
        self.rows = self.rows_of(work)

    def plan(self, number, era=0):
        if (number, era) not in self.made:
            self.made[number, era] = self.make(self.work.txns[number - 1], number, era)
        return self.made[number, era]

    def first_rows(self):
        """Of each data module its copies, anew for each run: fragment -> key -> date and row."""
        return [{fragment: rows.copy() for fragment, rows in module.items()} for module in self.rows]

    def rows_of(self, work):
        modules = [{f.name: {} for f in self.cat.fragments if d in f.copies} for d in range(1, self.cat.dms + 1)]
        for relation, row in work.rows:
            key = self.cat.relation[relation].key_of(row)
            fragment = self.cat.fragment_of(relation, key)
            for d in self.copies[fragment]:
                modules[d - 1][fragment][key] = 0, row
        return modules

    def make(self, txn, number, era):
        cls = plain.class_for(self.eras[era], txn)
        uses = plain.uses_of(self.whole, txn)
        read_at = lambda f: self.whole.read_at(cls, f)  # noqa: E731
        modules = range(1, self.cat.dms + 1) if cls == 0 else sorted({read_at(f) for use in uses for f in use.fragments})
        asked = {f for use in uses for f in use.fragments}
        reads = []
        for dm in modules:
            here = [self.use(use, tuple(f for f in use.fragments if read_at(f) == dm)) for use in uses]
            conds = graph.conditions(self.whole, self.pairs[era], cls, asked, dm, True, False)
            reads.append(Read(dm, tuple(x for x in here if x.fragments), tuple((c.cls, c.time, frozenset(c.fragments)) for c in conds)))
        return Plan(number, txn.name, txn.tm if cls else 0, cls, tuple(reads), self.changes(txn), exchange.moves_of(txn), queries_of(txn))

    def use(self, use, fragments):
        place = self.cat.relation[use.relation].key_place
        low, high = plain.keys_allowed(self.cat.relation[use.relation], use.conds)
        tests = tuple((c.column.place, plain.ADMITS[c.op], c.value) for c in use.conds if not (low == high and c.op == "=" and c.column.place == place))
        return Use(use.number, fragments, low if low == high else None, tests)

    def changes(self, txn):
        made, before = [], 1
        for s in txn.statements:
            if isinstance(s, statements.Put):
                key = self.cat.relation[s.relation].key_of(s.row)
                made.append((None, self.cat.fragment_of(s.relation, key), key, s.row))
            elif not isinstance(s, statements.Query):
                assigns = s.assigns if isinstance(s, statements.Update) else None
                made.append((before, self.cat.relation[s.relation].key_place, assigns))
            before += len(statements.relations_of(s))
        return tuple(made)


def queries_of(txn):
    made, before = [], 1
    for s in txn.statements:
        size = len(statements.relations_of(s))
        if isinstance(s, statements.Query):
            made.append((s.columns, tuple(range(before, before + size)), s.conds))
        before += size
    return tuple(made)


def effect_of(plan, held):
    """What the transaction changes, (fragment, key) -> row or None, by the rows that its uses found.

    `held` has for each use pairs of a fragment and a row. A transaction that fails changes nothing.
    """
    if not plan.changes or has_too_many(plan, held):
        return {}
    changes = {}
    try:
        for change in plan.changes:
            if change[0] is None:
                changes[change[1], change[2]] = change[3]
                continue
            use, place, assigns = change
            for fragment, row in held.get(use, ()):
                changes[fragment, row[place]] = None if assigns is None else plain.updated(row, assigns)
    except plain.Failed:
        return {}
    return changes


def has_too_many(plan, held):
    """Whether the answers have more rows than a reply may have; they are only made where that can be."""
    most = 0
    for _, uses, _ in plan.queries:
        size = 1
        for use in uses:
            size *= len(held.get(use, ()))
        most += size
    if most <= MOST_ROWS:
        return False
    total = 0
    for columns, uses, conds in plan.queries:
        parts = [[row for _, row in held.get(use, ())] for use in uses]
        total += len({tuple(rows[c.part][c.place] for c in columns) for rows in plain.tuples(parts, conds)})
    return total > MOST_ROWS
