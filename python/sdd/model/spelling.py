"""Catalogues and workloads as their files spell them.

A workload has one spelling; of a catalogue this is one of many. Definition: crates/sdd_script/specs/Spelling.antt.
"""
from collections.abc import Sequence

from sdd.model.catalogue import Catalogue
from sdd.model.statements import Column, Condition, Delete, Put, Query, Same, Statement
from sdd.model.words import GREATEST, LEAST, Row, value_word
from sdd.model.workload import Workload


def catalogue_text(cat: Catalogue) -> str:
    lines = ["tms = %d" % cat.tms, "dms = %d" % cat.dms]
    for r in cat.relations:
        columns = ", ".join('{name = "%s", kind = "%s"}' % c for c in r.columns)
        lines += ["", "[[relation]]", 'name = "%s"' % r.name, "columns = [%s]" % columns, 'key = "%s"' % r.key]
    for f in cat.fragments:
        lines += ["", "[[fragment]]", 'name = "%s"' % f.name, 'relation = "%s"' % f.relation]
        lines += ["from = %d" % f.low] * (f.low != LEAST) + ["to = %d" % f.high] * (f.high != GREATEST)
        lines.append("copies = %s" % list(f.copies))
    for c in cat.classes:
        lines += ["", "[[class]]", 'name = "%s"' % c.name, "tm = %d" % c.tm]
        lines.append("reads = [%s]" % ", ".join('{fragment = "%s", at = %d}' % r for r in c.reads))
        lines.append("writes = [%s]" % ", ".join('"%s"' % w for w in c.writes))
    return "".join(line + "\n" for line in lines)


def row_words(relation: str, row: Row) -> str:
    return " ".join([relation] + [value_word(v) for v in row])


def statement_line(cat: Catalogue, statement: Statement) -> str:
    if isinstance(statement, Put):
        return "put " + row_words(*statement)
    if isinstance(statement, Query):
        names = statement.relations
        listed = " ".join(column_word(cat, names, c) for c in statement.columns)
        head = "query %s from %s" % (listed, " ".join(names))
    elif isinstance(statement, Delete):
        names = (statement.relation,)
        head = "delete " + statement.relation
    else:
        names = (statement.relation,)
        columns = cat.relation[statement.relation].columns
        head = "update %s set" % statement.relation + "".join(
            " 1.%s %s %s" % (columns[a.place][0], "+=" if a.adds else "=", value_word(a.value)) for a in statement.assigns)
    return head + "".join(" %s %s" % ("and" if k else "where", cond_words(cat, names, c)) for k, c in enumerate(statement.conds))


def column_word(cat: Catalogue, names: Sequence[str], column: Column) -> str:
    return "%d.%s" % (column.part + 1, cat.relation[names[column.part]].columns[column.place][0])


def cond_words(cat: Catalogue, names: Sequence[str], cond: Condition) -> str:
    if isinstance(cond, Same):
        return "%s = %s" % (column_word(cat, names, cond.left), column_word(cat, names, cond.right))
    return "%s %s %s" % (column_word(cat, names, cond.column), cond.op, value_word(cond.value))


def workload_text(cat: Catalogue, work: Workload) -> str:
    lines = ["row " + row_words(*row) for row in work.rows]
    for txn in work.txns:
        lines += ["txn %s T%d" % (txn.name, txn.tm)] + [statement_line(cat, s) for s in txn.statements] + ["done"]
    for classes in work.lists:
        lines.append("list")
        for c in classes:
            lines.append("class %s T%d" % (c.name, c.tm))
            lines += ["reads %s D%d" % r for r in c.reads] + ["writes %s" % w for w in c.writes]
        lines.append("done")
    lines += [event.words(work.txns) for event in work.events] + ["end"]
    return "".join(line + "\n" for line in lines)
