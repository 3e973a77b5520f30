"""What the applications share: catalogues in short, and workloads whose submissions lie apart.

An application is a module with `DESIGNS`, a table from the name of a design to what makes it; `USUAL`, the
design that is taken where none is named; and `make(n, seed, design)`, the lines of a catalogue and of a workload.
"""

from sdd.bench.drawing import Random


class Catalogue:
    """The lines of a catalogue, and which data modules have links to which transaction modules."""

    def __init__(self, tms, dms):
        self.tms, self.dms = tms, dms
        self.lines = ["tms = %d" % tms, "dms = %d" % dms]
        self.copies = {}

    def relation(self, name, columns):
        """Columns are words; one that ends with a dollar sign has texts. The first one is the key."""
        shown = ['{name = "%s", kind = "%s"}' % (x.rstrip("$"), "text" if x.endswith("$") else "int") for x in columns.split()]
        self.lines += ["", "[[relation]]", 'name = "%s"' % name, "columns = [%s]" % ", ".join(shown), 'key = "%s"' % columns.split()[0]]

    def fragment(self, name, relation, copies, low=None, high=None):
        self.copies[name] = copies
        self.lines += ["", "[[fragment]]", 'name = "%s"' % name, 'relation = "%s"' % relation]
        self.lines += ["from = %d" % low] if low is not None else []
        self.lines += ["to = %d" % high] if high is not None else []
        self.lines.append("copies = %s" % copies)

    def halves(self, relation, cut, first, second):
        """Two fragments: keys below the cut, and from it on; each is a name and its copies."""
        self.fragment(first[0], relation, first[1], high=cut - 1)
        self.fragment(second[0], relation, second[1], low=cut)

    def add_class(self, name, tm, reads="", writes="", note=None):
        """Fragments are words; each is read at its first copy, or where `fragment@2` says."""
        shown = []
        for word in reads.split():
            fragment, _, at = word.partition("@")
            shown.append('{fragment = "%s", at = %s}' % (fragment, at or self.copies[fragment][0]))
        self.lines += ["", "[[class]]" + ("" if note is None else "                   # " + note), 'name = "%s"' % name, "tm = %d" % tm]
        self.lines += ["reads = [%s]" % ", ".join(shown)] if shown else []
        self.lines += ["writes = [%s]" % ", ".join('"%s"' % x for x in writes.split())] if writes else []


class Workload:
    """The lines of a workload: rows, transactions, and submissions with some deliveries between them."""

    def __init__(self, catalogue, seed):
        self.catalogue, self.random = catalogue, Random(seed + 1)
        self.rows, self.transactions, self.events, self.count = [], [], [], 0

    def row(self, relation, *values):
        self.rows.append("row %s %s" % (relation, " ".join(map(spelled, values))))

    def transaction(self, kind, tm, statements):
        """Its name is the kind with a number after it."""
        self.count += 1
        name = "%s%d" % (kind, self.count)
        self.transactions += ["txn %s T%d" % (name, tm)] + statements + ["done"]
        self.events.append("submit " + name)
        for _ in range(self.random.draw(12)):
            t, d = "T%d" % (self.random.draw(self.catalogue.tms) + 1), "D%d" % (self.random.draw(self.catalogue.dms) + 1)
            self.events.append("deliver %s %s 1" % ((t, d) if self.random.draw(2) else (d, t)))

    def lines(self):
        return self.rows + self.transactions + self.events + ["settle"]


def spelled(value):
    return '"%s"' % value if isinstance(value, str) else str(value)


def put(relation, *values):
    return "put %s %s" % (relation, " ".join(map(spelled, values)))


def add(relation, column, number, key, key_name="id"):
    """A sum on a column of the row with this key."""
    return "update %s set 1.%s += %d where 1.%s = %d" % (relation, column, number, key_name, key)


def look(relation, columns, key, key_name="id"):
    """A query of columns of the row with this key."""
    return "query %s from %s where 1.%s = %d" % (" ".join("1." + x for x in columns.split()), relation, key_name, key)
