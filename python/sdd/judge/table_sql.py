"""Tables and statements of a workload in SQL; values are %s.

Each table has a column more, `v_`, to which each change writes a number of its own and which each query lists. So a reply tells whose rows
it found, and two transactions that write equal values are told apart. All functions take a catalogue whose relations have that column.
"""
from dataclasses import replace

from sdd.model.catalogue import LIMITS
from sdd.model.files import BadInput
from sdd.model.statements import Assign, Column, Same

VERSION = "v_"


def with_versions(cat):
    """The catalogue with the column `v_` at the end of each relation."""
    for r in cat.relations:
        if VERSION in dict(r.columns) or len(r.columns) == LIMITS["column"]:
            raise BadInput("%s has %s, and sdd history adds one, %s" % (
                r.name, "a column " + VERSION if VERSION in dict(r.columns) else "%d columns, which is the most" % len(r.columns), VERSION))
    return replace(cat, relations=[replace(r, columns=r.columns + [(VERSION, "int")]) for r in cat.relations])


def quoted(name):
    return '"%s"' % name


def create_table(relation, kinds, key_kind):
    """`kinds`: how the engine calls `int` and `text`; `key_kind` how it calls the key."""
    columns = ["%s %s NOT NULL%s" % ((quoted(name), key_kind, " PRIMARY KEY") if name == relation.key else (quoted(name), kinds[kind], ""))
               for name, kind in relation.columns]
    return "CREATE TABLE %s (%s)" % (quoted(relation.name), ", ".join(columns))


def insert(relation, row):
    return "INSERT INTO %s VALUES (%s)" % (quoted(relation.name), ", ".join(["%s"] * len(row)))


def put_sql(engine, relation, row):
    """An INSERT that takes the place of a row that is there."""
    names = [quoted(name) for name, _ in relation.columns if name != relation.key]
    if engine == "mariadb":
        tail = "ON DUPLICATE KEY UPDATE " + ", ".join("%s = VALUES(%s)" % (x, x) for x in names)
    else:
        tail = "ON CONFLICT (%s) DO UPDATE SET %s" % (quoted(relation.key), ", ".join("%s = excluded.%s" % (x, x) for x in names))
    return "%s %s" % (insert(relation, row), tail), list(row)


def column_sql(cat, relations, column, alias):
    name = quoted(cat.relation[relations[column.part]].columns[column.place][0])
    return "u%d.%s" % (column.part + 1, name) if alias else name


def where_sql(cat, relations, conds, alias):
    """The condition, and its values."""
    parts, values = [], []
    for c in conds:
        if isinstance(c, Same):
            parts.append("%s = %s" % tuple(column_sql(cat, relations, x, alias) for x in (c.left, c.right)))
        else:
            parts.append("%s %s %%s" % (column_sql(cat, relations, c.column, alias), "<>" if c.op == "!=" else c.op))
            values.append(c.value)
    return (" WHERE " + " AND ".join(parts) if parts else ""), values


def with_listed(cat, query):
    """The query, which lists the key and `v_` of each part too."""
    made = list(query.columns)
    for part, name in enumerate(query.relations):
        relation = cat.relation[name]
        made += [x for x in (Column(part, relation.key_place), Column(part, len(relation.columns) - 1)) if x not in made]
    if len(made) > LIMITS["column"]:
        raise BadInput("a query from %s lists %d columns with keys and %s, and %d is the most" % (
            " ".join(query.relations), len(made), VERSION, LIMITS["column"]))
    return query._replace(columns=tuple(made))


def query_sql(cat, query):
    columns = ", ".join(column_sql(cat, query.relations, c, True) for c in query.columns)
    tables = ", ".join("%s AS u%d" % (quoted(r), k) for k, r in enumerate(query.relations, 1))
    condition, values = where_sql(cat, query.relations, query.conds, True)
    return "SELECT %s FROM %s%s" % (columns, tables, condition), values


def rows_sql(cat, statement):
    """The rows that an update or a delete is about."""
    condition, values = where_sql(cat, [statement.relation], statement.conds, False)
    return "SELECT * FROM %s%s" % (quoted(statement.relation), condition), values


def with_version(cat, update, version):
    """The update, which sets `v_` too."""
    return update._replace(assigns=update.assigns + (Assign(len(cat.relation[update.relation].columns) - 1, False, version),))


def update_sql(cat, update):
    relation, parts, given = cat.relation[update.relation], [], []
    for place, x in {x.place: x for x in update.assigns}.items():       # of assignments to one column the last one counts
        name = quoted(relation.columns[place][0])
        parts.append("%s = %s + %%s" % (name, name) if x.adds else "%s = %%s" % name)
        given.append(x.value)
    condition, values = where_sql(cat, [update.relation], update.conds, False)
    return "UPDATE %s SET %s%s" % (quoted(update.relation), ", ".join(parts), condition), given + values


def delete_sql(cat, delete):
    condition, values = where_sql(cat, [delete.relation], delete.conds, False)
    return "DELETE FROM %s%s" % (quoted(delete.relation), condition), values


def shown(sql, values):
    """A statement with its values in it, for people."""
    words = iter(str(x) if isinstance(x, int) else "'%s'" % x.replace("'", "''") for x in values)
    return "".join(part if k == 0 else next(words) + part for k, part in enumerate(sql.split("%s")))
