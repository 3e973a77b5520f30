"""A mix as YCSB has them: reads, updates, read-modify-writes, inserts and scans of one table by its key.

Keys are cut into four ranges of 100. A client at one of four sites asks for a record that is of its own range
in seven of ten cases.
"""
from sdd.bench.applications.base import Catalogue, Workload, put
from sdd.bench.drawing import Random

RANGES, WIDTH, RECORDS = 4, 100, 12     # the ranges, their width, and how many records each has at the start
MIX = [(50, "read"), (25, "update"), (10, "modify"), (5, "insert"), (10, "scan")]


def table(made):
    made.relation("usertable", "id field0 field1$")


def cut(made):
    table(made)
    for k in range(1, RANGES + 1):
        low, high = k * WIDTH, k * WIDTH + WIDTH - 1
        made.fragment("r%d" % k, "usertable", [k], low if k > 1 else None, high if k < RANGES else None)


def first():
    """The table is one fragment with a copy at each site; each site has a class that reads it and one that changes it."""
    made = Catalogue(RANGES, RANGES)
    table(made)
    made.fragment("all", "usertable", list(range(1, RANGES + 1)))
    for k in range(1, RANGES + 1):
        made.add_class("read_%d" % k, k, "all@%d" % k)
        made.add_class("change_%d" % k, k, "all@%d" % k, "all")
    return made


def add_classes(made, scanners):
    """Each site has a class to read each range; each range is changed at one site. Those that only read come first."""
    for k in range(1, RANGES + 1):
        for n in range(1, RANGES + 1):
            made.add_class("read_%d_%d" % (k, n), k, "r%d" % n)
    for k in range(1, scanners + 1):
        made.add_class("scan_%d" % k, k, " ".join("r%d" % n for n in range(1, RANGES + 1)))
    for k in range(1, RANGES + 1):
        made.add_class("change_%d" % k, k, "r%d" % k, "r%d" % k)


def routed():
    """A change is given to the site of its range, a scan to any site."""
    made = Catalogue(RANGES, RANGES)
    cut(made)
    add_classes(made, RANGES)
    return made


def one_scanner():
    """As `routed`; all scans are given to T1."""
    made = Catalogue(RANGES, RANGES)
    cut(made)
    add_classes(made, 1)
    return made


DESIGNS = {"first": first, "routed": routed, "scanner": one_scanner}
USUAL = "scanner"


def make(n, seed, design):
    random = Random(seed)
    catalogue = DESIGNS[design]()
    work = Workload(catalogue, seed)
    for k in range(1, RANGES + 1):
        for x in range(RECORDS):
            work.row("usertable", k * WIDTH + x, x, "f%d" % x)
    last = {k: k * WIDTH + RECORDS for k in range(1, RANGES + 1)}
    for _ in range(n):
        kind, client, near = random.weighted(MIX), 1 + random.draw(RANGES), random.draw(10) < 7
        range_ = client if near else 1 + random.draw(RANGES)
        key, value, length = range_ * WIDTH + random.draw(RECORDS), random.draw(1000), 2 + random.draw(8)
        owner = client if design == "first" else range_
        read = "query 1.field0 1.field1 from usertable where 1.id = %d" % key
        change = "update usertable set 1.field0 = %d where 1.id = %d" % (value, key)
        if kind == "insert":
            last[range_] += last[range_] < (range_ + 1) * WIDTH - 1
        tm, statements = {
            "read": (client, [read]),
            "update": (owner, [change]),
            "modify": (owner, [read, change]),
            "insert": (owner, [put("usertable", last[range_], value, "new")]),
            "scan": (1 if design == "scanner" else client, [
                "query 1.id 1.field0 from usertable where 1.id >= %d and 1.id <= %d" % (key, key + length * WIDTH // 4)]),
        }[kind]
        work.transaction(kind, tm, statements)
    return catalogue.lines, work.lines()
