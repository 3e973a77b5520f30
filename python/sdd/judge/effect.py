"""What a transaction does on a database: written anew from docs/FORMATS.md, to judge histories from outside.

    reply, changes = effect(txn, database, catalogue)

It shares nothing with the reference, sdd/reference/plain.py, which says the same: a fault there isn't a fault here. A
database is a dictionary of relations, each a dictionary from keys to rows.
"""
import operator

from sdd.model.report import Reply
from sdd.model.statements import Compare, Put, Query, Same, Update, relations_of
from sdd.model.words import GREATEST, LEAST

MOST_ROWS = 4096
OPERATORS = {"=": operator.eq, "!=": operator.ne, "<": operator.lt, "<=": operator.le, ">": operator.gt, ">=": operator.ge}


def first_database(work, catalogue):
    """The first rows of a workload."""
    made = {name: {} for name in catalogue.relation}
    for relation, row in work.rows:
        made[relation][catalogue.relation[relation].key_of(row)] = row
    return made


def key_range(conditions, use, key):
    """The keys that the conditions leave to a use, as the least and the greatest."""
    low, high = LEAST, GREATEST
    for c in conditions:
        if isinstance(c, Compare) and c.column == (use, key):
            if c.op in ("=", ">=", ">"):
                low = max(low, c.value + (c.op == ">"))
            if c.op in ("=", "<=", "<"):
                high = min(high, c.value - (c.op == "<"))
    return low, high


def reads(txn, catalogue):
    """For each use of the transaction its relation, and the least and the greatest key."""
    for s in txn.statements:
        for use, relation in enumerate(relations_of(s)):
            yield (relation,) + key_range(s.conds, use, catalogue.relation[relation].key_place)


def read_set(txn, catalogue):
    """The fragments that its queries, updates and deletes read."""
    ranges = list(reads(txn, catalogue))
    return [x.name for x in catalogue.fragments
            if any(x.relation == relation and max(low, x.low) <= min(high, x.high) for relation, low, high in ranges)]


def meets(row, conditions, use):
    """Whether a row meets the conditions that speak of this use alone."""
    for c in conditions:
        if isinstance(c, Compare):
            if c.column.part == use and not OPERATORS[c.op](row[c.column.place], c.value):
                return False
        elif c.left.part == c.right.part == use and row[c.left.place] != row[c.right.place]:
            return False
    return True


def answer(query, database):
    """The rows of a query, ascending and each once; None where there are more than a transaction may have."""
    ties = [(c.left, c.right) for c in query.conds if isinstance(c, Same) and c.left.part != c.right.part]
    ties += [(b, a) for a, b in ties]
    found, names = {()}, []         # parts of rows, of the columns that are wanted further on
    for use, relation in enumerate(query.relations):
        mine = [(a.place, names.index(b)) for a, b in ties if a.part == use and b.part < use]
        later = {a for a, b in ties if a.part <= use < b.part} | {x for x in query.columns if x.part <= use}
        kept = [x for x in names if x in later]
        own = sorted(x for x in later if x.part == use)
        table = {}
        for row in database[relation].values():
            if meets(row, query.conds, use):
                table.setdefault(tuple(row[c] for c, _ in mine), set()).add(tuple(row[x.place] for x in own))
        places = [names.index(x) for x in kept]
        longer = set()
        for part in found:
            for more in table.get(tuple(part[k] for _, k in mine), ()):
                longer.add(tuple(part[k] for k in places) + more)
        found, names = longer, kept + own
    rows = {tuple(x[names.index(c)] for c in query.columns) for x in found}
    return None if len(rows) > MOST_ROWS else tuple(sorted(rows))


def effect(txn, database, catalogue):
    """The reply, and the changes: a dictionary from relation and key to the new row, or None."""
    answers, changes, count = [], {}, 0
    for s in txn.statements:
        if isinstance(s, Put):
            changes[s.relation, catalogue.relation[s.relation].key_of(s.row)] = s.row
        elif isinstance(s, Query):
            rows = answer(s, database)
            count += 0 if rows is None else len(rows)
            if rows is None or count > MOST_ROWS:
                return Reply("toomany", ()), {}
            answers.append(rows)
        else:
            key = catalogue.relation[s.relation].key_place
            met = [row for row in database[s.relation].values() if meets(row, s.conds, 0)]
            found = {(s.relation, row[key]): updated(row, s.assigns) if isinstance(s, Update) else None for row in met}
            if () in found.values():
                return Reply("overflow", ()), {}
            changes.update(found)
    return Reply("ok", tuple(answers)), changes


def updated(row, assigns):
    """The row with its columns set; none at all where a sum leaves the 64 bits."""
    new = list(row)
    for x in assigns:
        new[x.place] = row[x.place] + x.value if x.adds else x.value
        if x.adds and not LEAST <= new[x.place] <= GREATEST:
            return ()
    return tuple(new)
