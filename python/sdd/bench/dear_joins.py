"""Joins of one relation with itself that have many choices: a part of sdd make-workload and of tools/benchmark_joins.py.

The relation `r` has the columns id, a and b. A row is an arrow from a to b, and the uses of a join are tied end to end.
"""
from sdd.bench.drawing import Random

CATALOGUE = ["tms = 1", "dms = 1", "[[relation]]", 'name = "r"',
             'columns = [{name = "id", kind = "int"}, {name = "a", kind = "int"}, {name = "b", kind = "int"}]', 'key = "id"',
             "[[fragment]]", 'name = "all"', 'relation = "r"', "copies = [1]",
             "[[class]]", 'name = "own"', "tm = 1", 'reads = [{fragment = "all", at = 1}]']


def drawn(n, values):
    """N rows whose ends are drawn from so many values."""
    random = Random(1)
    return [(k, random.draw(values), random.draw(values)) for k in range(n)]


def hub(n, _):
    """Half of the rows lead from a hub to its leaves, half from elsewhere to the hub, so that no ring closes."""
    return [(k, 0, k + 1) if k < n // 2 else (k, 100001 + k, 0) for k in range(n)]


def hub_and_back(n, _):
    """Half of the rows lead from a hub to its leaves, half from these back, so that rings of two, four and six close."""
    return [(k, 0, k + 1) if k < n // 2 else (k, k - n // 2 + 1, 0) for k in range(n)]


def path(uses):
    return ["%d.b = %d.a" % (k, k + 1) for k in range(1, uses)]


def ring(uses):
    return path(uses) + ["%d.b = 1.a" % uses]


def star(uses):
    return ["1.b = %d.a" % k for k in range(2, uses + 1)]


def product(_):
    return []


def keys(uses):
    """The key of each use."""
    return " ".join("%d.id" % k for k in range(1, uses + 1))


def query(listed, uses, conditions):
    return "query %s from %s%s" % (listed, " ".join(["r"] * uses), " where " + " and ".join(conditions) if conditions else "")


def workload(arrows, queries):
    """The lines of a catalogue and those of a workload without its end: a transaction for each query."""
    lines = ["row r %d %d %d" % x for x in arrows]
    for k, text in enumerate(queries):
        lines += ["txn q%d T1" % k, text, "done"]
    return CATALOGUE, lines + ["submit q%d" % k for k in range(len(queries))] + ["settle"]


def hubs(n, _):
    """Rings of three, four and six uses over N rows of which half lead from a hub, and half to it."""
    return workload(hub(n, 0), [query("1.id", uses, ring(uses)) for uses in (3, 4, 6)])


def rings(n, _):
    """Two rings of six uses over N rows, a twelfth as many values, with the key of each use: too many answers."""
    return workload(drawn(n, max(1, n // 12)), [query(keys(6), 6, ring(6))] * 2)
