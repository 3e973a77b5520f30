"""Runs of a few transactions on the rows that they may read or change; the other rows stay as they are."""
from bisect import bisect_left, bisect_right
from collections import defaultdict

from sdd.reference.plain import apply, database_of, effect


class FirstRows:
    """The rows with which a workload begins."""

    def __init__(self, cat, work):
        self.database, self.keys = database_of(cat, work.rows), defaultdict(list)
        for relation, key in sorted(self.database):
            self.keys[relation].append(key)

    def of(self, accesses):
        """A database of those that the accesses are of."""
        found = {}
        for x in accesses:
            keys = self.keys[x.relation]
            items = ((x.relation, key) for key in keys[bisect_left(keys, x.least):bisect_right(keys, x.greatest)])
            found.update((item, self.database[item]) for item in items)
        return found


def has_order(cat, database, runs, last):
    """Whether the transactions can run on the database one after the other, each with its reply, so that the last one is left."""
    if not runs:
        return database == last
    for n, (txn, reply) in enumerate(runs):
        found, changes = effect(cat, database, txn)
        if found == reply:
            after = dict(database)
            apply(after, changes)
            if has_order(cat, after, runs[:n] + runs[n + 1:], last):
                return True
    return False
