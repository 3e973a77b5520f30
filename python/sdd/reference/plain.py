"""The plain meaning of a transaction: its reply and its changes on the database as it was when it began.

A query is a product, a selection and a projection; of two changes of one row the later wins; the first statement that
fails decides, and a transaction that fails changes nothing. Definition: crates/sdd_lang/specs/Effect.antt, Query.antt,
Update.antt, Uses.antt, Classes.antt, Serial.antt.
"""
from typing import NamedTuple

from sdd.model.statements import Compare, Delete, Put, Query, Same, relations_of
from sdd.model.words import GREATEST, LEAST, value_word

MAX_REPLY_ROWS = 4096

ADMITS = {"=": lambda a, b: a == b, "!=": lambda a, b: a != b, "<": lambda a, b: a < b,
          "<=": lambda a, b: a <= b, ">": lambda a, b: a > b, ">=": lambda a, b: a >= b}


class Reply(NamedTuple):
    kind: str               # ok, overflow, toomany
    answers: tuple = ()     # for each query its rows

    def lines(self):
        lines = [self.kind]
        for number, rows in enumerate(self.answers, 1):
            lines += ["query %d %d" % (number, len(rows))] + [row_line(row) for row in rows]
        return lines


def row_line(row):
    return " ".join(["row"] + [value_word(v) for v in row])


class Failed(Exception):
    pass


# A database is a dictionary: (relation, key) -> row.

def database_of(cat, rows):
    return {(name, cat.relation[name].key_of(row)): row for name, row in rows}


def rows_of(database, relation):
    return [database[item] for item in sorted(x for x in database if x[0] == relation)]


def meets(cond, rows):
    """Whether a tuple of rows, one of each relation, meets the condition."""
    if isinstance(cond, Same):
        return rows[cond.left.part][cond.left.place] == rows[cond.right.part][cond.right.place]
    return ADMITS[cond.op](rows[cond.column.part][cond.column.place], cond.value)


def last_part(cond):
    return max(cond.left.part, cond.right.part) if isinstance(cond, Same) else cond.column.part


def tuples(parts, conds, chosen=()):
    """Each tuple of one row of each part that meets all conditions; a condition is asked once its parts are there."""
    at = len(chosen)
    if at == len(parts):
        yield chosen
        return
    asked = [c for c in conds if last_part(c) == at]
    for row in parts[at]:
        if all(meets(c, chosen + (row,)) for c in asked):
            yield from tuples(parts, conds, chosen + (row,))


def answer(database, query):
    parts = [rows_of(database, relation) for relation in query.relations]
    found = {tuple(rows[c.part][c.place] for c in query.columns) for rows in tuples(parts, query.conds)}
    return tuple(sorted(found))


def chosen(database, statement):
    """The items of an update's or delete's relation that meet its conditions, in order."""
    return [(item, database[item]) for item in sorted(x for x in database if x[0] == statement.relation)
            if all(meets(c, (database[item],)) for c in statement.conds)]


def updated(old, assigns):
    """The row that stands in place of an old one; sums are made with the old values."""
    row = list(old)
    for assign in assigns:
        row[assign.place] = old[assign.place] + assign.value if assign.adds else assign.value
        if assign.adds and not LEAST <= row[assign.place] <= GREATEST:
            raise Failed("overflow")
    return tuple(row)


def effect(cat, database, txn):
    """The reply and the changes, (relation, key) -> row or None, of a transaction."""
    answers, changes = [], {}
    try:
        for statement in txn.statements:
            if isinstance(statement, Put):
                changes[statement.relation, cat.relation[statement.relation].key_of(statement.row)] = statement.row
            elif isinstance(statement, Query):
                answers.append(answer(database, statement))
                if sum(map(len, answers)) > MAX_REPLY_ROWS:
                    raise Failed("toomany")
            else:
                is_delete = isinstance(statement, Delete)
                changes.update((item, None if is_delete else updated(row, statement.assigns))
                               for item, row in chosen(database, statement))
    except Failed as failed:
        return Reply(str(failed)), {}
    return Reply("ok", tuple(answers)), changes


def apply(database, changes):
    for item, row in changes.items():
        if row is None:
            database.pop(item, None)
        else:
            database[item] = row


def serial(cat, rows, txns):
    """The replies of transactions that run one after the other on one database, and what it is left with."""
    database, replies = database_of(cat, rows), []
    for txn in txns:
        reply, changes = effect(cat, database, txn)
        apply(database, changes)
        replies.append(reply)
    return replies, database


def reply_lines(name, reply):
    first, *rest = reply.lines()
    return ["reply %s %s" % (name, first)] + rest


def plain_text(cat, work):
    txns = [work.txns[n - 1] for n in work.submitted()]
    lines = [" ".join(["order"] + [t.name for t in txns])]
    for txn, reply in zip(txns, serial(cat, work.rows, txns)[0]):
        lines += reply_lines(txn.name, reply)
    return "".join(line + "\n" for line in lines + ["end"])


# What a transaction reads and writes, and the class that covers it.

class Use(NamedTuple):
    """A relation that a statement reads: its number in the transaction, its conditions against constants, its fragments."""
    number: int
    relation: str
    conds: tuple
    fragments: tuple


def uses_of(cat, txn):
    found = []
    for statement in txn.statements:
        for part, relation in enumerate(relations_of(statement)):
            own = tuple(c for c in statement.conds if isinstance(c, Compare) and c.column.part == part)
            low, high = keys_allowed(cat.relation[relation], own)
            fragments = tuple(f.name for f in cat.of_relation[relation] if max(low, f.low) <= min(high, f.high))
            found.append(Use(len(found) + 1, relation, own, fragments))
    return found


def keys_allowed(relation, conds):
    """The least and the greatest key that conditions on the key leave; != leaves all."""
    low, high = LEAST, GREATEST
    for cond in conds:
        if cond.column.place == relation.key_place:
            n = cond.value
            low = max(low, {"=": n, ">": n + 1, ">=": n}.get(cond.op, low))
            high = min(high, {"=": n, "<": n - 1, "<=": n}.get(cond.op, high))
    return low, high


def fragments_read(cat, txn):
    return cat.in_order(f for use in uses_of(cat, txn) for f in use.fragments)


def fragments_written(cat, txn):
    found = []
    for statement in txn.statements:
        if isinstance(statement, Put):
            found.append(cat.fragment_of(statement.relation, cat.relation[statement.relation].key_of(statement.row)))
        elif not isinstance(statement, Query):
            found += fragments_read(cat, txn._replace(statements=(statement,)))
    return cat.in_order(found)


def class_for(cat, txn):
    """The lowest class at its module that reads all that it reads and writes all that it writes; 0 where none does."""
    reads, writes = set(fragments_read(cat, txn)), set(fragments_written(cat, txn))
    for number, cls in enumerate(cat.classes, 1):
        if cls.tm == txn.tm and reads <= set(dict(cls.reads)) and writes <= set(cls.writes):
            return number
    return 0
