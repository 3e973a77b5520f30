"""Which transactions of a workload have accesses that meet.

A set of transactions is a number: the bit at the place of each of them is 1. So what is asked of one access and of all
transactions is answered at once.
"""
from bisect import bisect_left, bisect_right
from collections import defaultdict

from sdd.reference.accesses import ALL_COLUMNS


def places(some):
    """The places of a set, in their order."""
    while some:
        place = (some & -some).bit_length() - 1
        yield place
        some &= some - 1


def first_place(some):
    return next(places(some))


class Meetings:
    """The transactions with an access of one kind, by what it is of."""

    def __init__(self, all_accesses, is_of_kind):
        self.of_key, self.of_range = defaultdict(dict), defaultdict(dict)   # by relation, then by least, greatest and column
        for place, accesses in enumerate(all_accesses):
            for x in filter(is_of_kind, accesses):
                found = (self.of_key if x.least == x.greatest else self.of_range)[x.relation]
                found[x.least, x.greatest, x.column] = found.get((x.least, x.greatest, x.column), 0) | 1 << place
        self.sorted = {relation: sorted(found) for relation, found in self.of_key.items()}
        self.known = {}

    def of(self, x, any_column=False):
        """Those with an access of the kind that has a column of a row with this one; with any column: that has a row with it."""
        column = ALL_COLUMNS if any_column else x.column
        asked = x.relation, x.least, x.greatest, column
        if asked not in self.known:
            self.known[asked] = self.found(*asked)
        return self.known[asked]

    def found(self, relation, least, greatest, column):
        some = 0
        ordered = self.sorted.get(relation, [])
        for which in ordered[bisect_left(ordered, (least,)):bisect_right(ordered, (greatest, greatest, float("inf")))]:
            if ALL_COLUMNS in (column, which[2]) or column == which[2]:
                some |= self.of_key[relation][which]
        for which, those in self.of_range[relation].items():
            if which[0] <= greatest and least <= which[1] and (ALL_COLUMNS in (column, which[2]) or column == which[2]):
                some |= those
        return some
