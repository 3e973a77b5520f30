"""The known applications, as their descriptions say: what an amalgamation moves, and which orders are delivered."""
import os
import tempfile
import unittest

import sdd_path  # noqa: F401
from sdd.bench.applications import smallbank
from sdd.bench.make_workload import write_workload
from sdd.model.reading import catalogue_at, workload_at
from sdd.model.statements import Delete
from sdd.reference.plain import serial

BALANCES = {"savings", "checking", "balance"}


def read_application(folder, name, n, design):
    paths = write_workload(os.path.join(folder, design), name, n, design=design)
    cat = catalogue_at(paths[0])
    return cat, workload_at(paths[1], cat)


def money_of(rows):
    return sum(x for relation, row in rows if relation in BALANCES for x in row[1:])


def moved(cat, work, txns):
    """By how much the sum of all balances rises where these transactions run one after the other."""
    left = serial(cat, work.rows, txns)[1]
    return money_of((relation, row) for (relation, _), row in left.items()) - money_of(work.rows)


class Applications(unittest.TestCase):
    def test_an_amalgamation_loses_no_money(self):
        with tempfile.TemporaryDirectory() as folder:
            for design in smallbank.DESIGNS:
                cat, work = read_application(folder, "smallbank", 60, design)
                pairs = [[x] for x in work.txns if x.name.startswith("amalgamate")]
                for k, x in enumerate(work.txns):
                    if x.name.startswith("credit") and work.txns[k - 1].name.startswith("amalgamate"):
                        pairs[pairs.index([work.txns[k - 1]])].append(x)
                self.assertTrue(pairs)
                self.assertEqual([0] * len(pairs), [moved(cat, work, x) for x in pairs], design)

    def test_a_delivery_takes_an_order_that_was_there(self):
        with tempfile.TemporaryDirectory() as folder:
            for design, n in (("first", 200), ("beside", 600)):
                _, work = read_application(folder, "tpcc", n, design)
                there = {row[0] for relation, row in work.rows if relation == "neworder"}
                taken = [s.conds[0].value for x in work.txns for s in x.statements if isinstance(s, Delete)]
                self.assertEqual(len(taken), len(set(taken)), (design, n))
                self.assertEqual(2 * len([x for x in work.txns if x.name.startswith("delivery")]), len(taken), (design, n))
                self.assertLessEqual(set(taken), there, (design, n))


if __name__ == "__main__":
    unittest.main()
