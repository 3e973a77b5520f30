"""`robust CAT WORK`: known answers, and random sets whose answers are compared with all orders of short runs.

    python3 tests/test_robust.py                    some sets, and of each some drawn runs
    python3 tests/test_robust.py FROM TO            the sets of these numbers, and of each all runs of up to three transactions
"""
import collections
import os
import random
import sys
import tempfile
import unittest
from itertools import combinations, combinations_with_replacement

import sdd_path  # noqa: F401
from sdd.bench.applications import tatp, tpcc, ycsb
from sdd.bench.make_workload import write_workload
from sdd.bench.small_transactions import CATALOGUE, drawn_set
from sdd.model.catalogue import Catalogue, Fragment, Relation, read_catalogue
from sdd.model.statements import Assign, Column, Compare, Query, Txn, Update
from sdd.model.words import GREATEST, LEAST
from sdd.model.workload import Workload, read_workload
from sdd.reference.meetings import places
from sdd.reference.robust import Kinds, robust_work_text
from snapshot_runs import SnapshotRun, all_steps, drawn_steps, one_while_others_run

EXAMPLES = os.path.join(os.path.dirname(os.path.abspath(__file__)), "..", "examples")
RUNS_DRAWN = 60         # of a set
MOST_AT_ONCE = 3        # transactions of a run, where all runs are tried
ROBUST, UNKNOWN = "snapshot isolation: robust\n", "snapshot isolation: unknown"


def answer_in(folder):
    with open(os.path.join(folder, "catalogue.toml"), "rb") as cat, open(os.path.join(folder, "workload"), "rb") as work:
        catalogue = read_catalogue(cat.read())
        return robust_work_text(catalogue, read_workload(catalogue, work.read()))


def answer_of_application(name, design):
    with tempfile.TemporaryDirectory() as room:
        write_workload(room, name, 200, 1, design)
        return answer_in(room)


# SmallBank as its authors publish it: two accounts of a customer, five kinds of transactions.

RELATIONS = [Relation(name, [("id", "int"), ("amount", "int")], "id") for name in ("savings", "checking")]
BANK = Catalogue(1, 1, RELATIONS, [Fragment(r.name, r.name, LEAST, GREATEST, [1]) for r in RELATIONS], [])


def of_customer(customer):
    return (Compare(Column(0, 0), "=", customer),)


def look(name, customer):
    return Query((Column(0, 1),), (name,), of_customer(customer))


def add(name, customer, amount):
    return Update(name, (Assign(1, True, amount),), of_customer(customer))


def small_bank(kinds):
    """The transactions of these kinds, of two customers."""
    made = {
        "balance": lambda a, b: [look("savings", a), look("checking", a)],
        "deposit": lambda a, b: [add("checking", a, 1)],
        "savings": lambda a, b: [add("savings", a, 20)],
        "amalgamate": lambda a, b: [look("savings", a), look("checking", a), add("savings", a, -1), add("checking", a, -1), add("checking", b, 2)],
        "check": lambda a, b: [look("savings", a), look("checking", a), add("checking", a, -1)]}
    txns = [Txn("%s%d" % (kind, a), 1, tuple(made[kind](a, 3 - a))) for kind in kinds for a in (1, 2)]
    return Workload([(name, (n, 100)) for name in ("savings", "checking") for n in (1, 2)], txns, [], [])


def is_robust(kinds):
    return robust_work_text(BANK, small_bank(kinds)) == ROBUST


def chain(count, is_ring):
    """Each looks at the savings of the next customer, and adds to those of its own."""
    txns = [Txn("t%d" % k, 1, (look("savings", (k + 1) % count if is_ring else k + 1), add("savings", k, 1))) for k in range(count)]
    return Workload([("savings", (k, 0)) for k in range(count + 1)], txns, [], [])


class KnownAnswers(unittest.TestCase):
    def test_smallbank(self):
        """The published pivot: a check reads savings that miss a deposit, and a balance sees the deposit and not the check."""
        for design in ("first", "tellers", "branches", "together"):
            self.assertEqual(answer_of_application("smallbank", design),
                             "snapshot isolation: not robust\nbegin check20\nrun savings43\nrun balance189\nend check20\n")
        self.assertEqual(answer_of_application("smallbank", "steps"),
                         "snapshot isolation: not robust\nbegin check21\nrun savings44\nrun balance194\nend check21\n")
        for design in ("apart", "audit", "audit_class", "audit_copy"):
            self.assertEqual(answer_of_application("smallbank", design), ROBUST)

    def test_maximal_subsets_of_smallbank(self):
        kinds = ("amalgamate", "balance", "check", "deposit", "savings")
        found = []
        for count in range(5, 0, -1):
            found += [set(some) for some in combinations(kinds, count) if not any(set(some) <= x for x in found) and is_robust(some)]
        self.assertCountEqual(found, [set(kinds) - {left_out} for left_out in ("balance", "check", "savings")])

    def test_other_applications(self):
        for name, application in (("tpcc", tpcc), ("tatp", tatp), ("ycsb", ycsb)):
            for design in application.DESIGNS:
                self.assertEqual(answer_of_application(name, design), ROBUST, (name, design))

    def test_chains(self):
        """In a chain conflicts are followed from each transaction, to its end; in a ring from the first one, all around."""
        for is_ring, answer in ((False, ROBUST), (True, UNKNOWN)):
            self.assertTrue(robust_work_text(BANK, chain(400, is_ring)).startswith(answer))

    def test_examples(self):
        skew = "snapshot isolation: not robust\nbegin down\nrun up\nend down\n"
        for name, text in (("two_protocols", skew), ("bridge", ROBUST)):
            self.assertEqual(answer_in(os.path.join(EXAMPLES, name)), text)


# Random sets.

def drawn_runs(work, rng):
    for _ in range(RUNS_DRAWN):
        txns = [rng.choice(work.txns) for _ in range(rng.choice([2, 3, 3, 4, 5]))]
        yield SnapshotRun(CATALOGUE, work, txns, drawn_steps(rng, len(txns)))


def all_runs(work, rng):
    for count in range(2, MOST_AT_ONCE + 1):
        for txns in combinations_with_replacement(work.txns, count):
            for steps in all_steps(count):
                yield SnapshotRun(CATALOGUE, work, txns, steps)


def judged(seed, runs):
    """The first line's answer for a set, and why it can't be, where these runs speak against it."""
    rng = random.Random(seed)
    work = drawn_set(rng)
    first, *lines = robust_work_text(CATALOGUE, work).splitlines()
    answer = first.removeprefix("snapshot isolation: ")
    if answer == "robust":
        for run in runs(work, rng):
            if not run.has_order():
                return answer, "a run of %s has no order" % " ".join(txn.name for txn, _ in run.committed)
    elif answer == "not robust":
        named = {txn.name: txn for txn in work.txns}
        txns = [named[line.split()[1]] for line in lines[:-1]]
        run = SnapshotRun(CATALOGUE, work, txns, one_while_others_run(len(txns)))
        if len(run.committed) < len(txns) or run.has_order():
            return answer, "the run is like a serial one"
    return answer, None


class RandomSets(unittest.TestCase):
    def test_answers_agree_with_all_orders(self):
        for seed in range(100):
            self.assertIsNone(judged(seed, drawn_runs)[1], seed)

    def test_conflicts_are_those_of_each_two(self):
        """What is asked of one access and all transactions at once, asked of each two of them."""
        for seed in range(100):
            kinds = Kinds(CATALOGUE, drawn_set(random.Random(seed)))
            for n, own in enumerate(kinds.all):
                self.assertEqual(list(places(kinds.conflicts[n])), [m for m, other in enumerate(kinds.all) if conflict(own, other)])
                self.assertEqual(list(places(kinds.beside(n))), [m for m, other in enumerate(kinds.all) if not are_apart(own, other)])


def have_a_row(x, y):
    return x.relation == y.relation and max(x.least, y.least) <= min(x.greatest, y.greatest)


def conflict(own, others):
    return any(have_a_row(x, y) and (x.changes and y.changes or (x.changes or y.changes) and 0 in (x.column, y.column, x.column - y.column))
               for x in own for y in others)


def are_apart(own, others):
    return any(x.sure and y.sure and have_a_row(x, y) for x in own for y in others)


def main(first, last):
    counts = collections.Counter()
    for seed in range(first, last):
        answer, why = judged(seed, all_runs)
        counts[answer] += 1
        if why:
            print("%d: %s: %s" % (seed, answer, why))
            counts["wrong"] += 1
    print(", ".join("%s: %d" % pair for pair in sorted(counts.items())))
    return int(counts["wrong"] > 0)


if __name__ == "__main__":
    sys.exit(main(*map(int, sys.argv[1:])) if len(sys.argv) == 3 else unittest.main())
