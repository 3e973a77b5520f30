"""What a transaction may read and change: columns of the rows of relations from one key to another.

Definition: docs/FORMATS.md, "What `sdd1_ask` prints"; crates/sdd_robust_laws/specs/Accesses.antt.
"""
from typing import NamedTuple

from sdd.model.statements import Compare, Delete, Put, Query, Update, relations_of
from sdd.reference.plain import keys_allowed

ALL_COLUMNS = 0


class Access(NamedTuple):
    relation: str
    least: int
    greatest: int
    column: int         # from 1; ALL_COLUMNS for all of them, and for whether there is a row
    reads: bool
    changes: bool
    sure: bool          # it is one row, which each run of the transaction changes that ends


def keys_of_part(cat, statement, part, relation):
    """The least and the greatest key that the conditions on a part of a statement leave."""
    own = [c for c in statement.conds if isinstance(c, Compare) and c.column.part == part]
    return keys_allowed(cat.relation[relation], own)


def columns_read(cat, statement, part, relation):
    """The columns of a part that are named, in conditions and in what is listed, and the key: by it it is known which rows there are."""
    named = list(statement.columns) if isinstance(statement, Query) else []
    for cond in statement.conds:
        named += [cond.column] if isinstance(cond, Compare) else [cond.left, cond.right]
    return sorted({cat.relation[relation].key_place + 1} | {c.place + 1 for c in named if c.part == part})


class Accesses:
    """Those of a workload's transactions, where the database begins with the workload's rows."""

    def __init__(self, cat, work):
        self.cat = cat
        self.there = {(name, cat.relation[name].key_of(row)) for name, row in work.rows}
        deletes = {s for txn in work.txns for s in txn.statements if isinstance(s, Delete)}
        self.deleted = [(s.relation, *keys_of_part(cat, s, 0, s.relation)) for s in deletes]

    def of(self, txn):
        return tuple(access for statement in txn.statements for access in self.of_statement(statement)
                     if access.least <= access.greatest)

    def of_statement(self, statement):
        if isinstance(statement, Put):
            key = self.cat.relation[statement.relation].key_of(statement.row)
            return [Access(statement.relation, key, key, ALL_COLUMNS, False, True, True)]
        reads = [Access(relation, *keys_of_part(self.cat, statement, part, relation), column, True, False, False)
                 for part, relation in enumerate(relations_of(statement))
                 for column in columns_read(self.cat, statement, part, relation)]
        return reads if isinstance(statement, Query) else reads + self.changes_of(statement)

    def changes_of(self, statement):
        """What an update or a delete may change."""
        keys = keys_of_part(self.cat, statement, 0, statement.relation)
        if isinstance(statement, Delete):
            return [Access(statement.relation, *keys, ALL_COLUMNS, False, True, False)]
        sure = self.updates_one_row(statement)
        return [Access(statement.relation, *keys, assign.place + 1, False, True, sure) for assign in statement.assigns]

    def updates_one_row(self, update: Update):
        """Whether each condition is `key = N`, and that row is there at first and nobody may delete it."""
        key_place = self.cat.relation[update.relation].key_place
        least, greatest = keys_of_part(self.cat, update, 0, update.relation)
        by_key = all(isinstance(c, Compare) and c.column.place == key_place and c.op == "=" for c in update.conds)
        return by_key and least == greatest and self.stays(update.relation, least)

    def stays(self, relation, key):
        return (relation, key) in self.there and not any(
            name == relation and least <= key <= greatest for name, least, greatest in self.deleted)


def rows_meet(x, y):
    """Whether there may be a row that both accesses are of."""
    return x.relation == y.relation and x.least <= y.greatest and y.least <= x.greatest


def are_of_one_row(x, y):
    return rows_meet(x, y) and x.least == x.greatest and y.least == y.greatest
