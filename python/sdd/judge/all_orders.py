"""Judges a report by trying every order of its committed transactions on one plain database.

    sdd all-orders REPORT WORKLOAD CATALOGUE

An order explains the report where the transactions, run one after the other in it, give the replies that the report
tells, and leave in each copy the rows that it lists. Copies are asked only where no transaction is pending. It prints
one such order and ends with 0; or it prints that there is none, and ends with 1. At most 8 transactions are tried.
"""
import itertools

from sdd.command import parser
from sdd.model.files import BadInput
from sdd.model.reading import catalogue_at, workload_at
from sdd.model.report import read_report
from sdd.reference.plain import serial

MOST = 8


def rows_left(cat, database, fragment):
    """The rows of a fragment, ascending by key."""
    f = cat.fragment[fragment]
    return [database[item] for item in sorted(database) if item[0] == f.relation and f.low <= item[1] <= f.high]


def explaining_order(cat, work, replies, copies):
    """The numbers of the transactions in an order that gives these replies, by number, and these copies, which are pairs
    of a fragment and its rows; or None."""
    for order in itertools.permutations(sorted(replies)):
        found, database = serial(cat, work.rows, [work.txns[n - 1] for n in order])
        if found == [replies[n] for n in order] and all(rows_left(cat, database, f) == rows for f, rows in copies):
            return order
    return None


def judged(report, cat, work):
    """The names of an order that explains a report as sdd/model/report.py reads it, or None."""
    number = {txn.name: n for n, txn in enumerate(work.txns, 1)}
    strange = [name for name in report.replies if name not in number]
    if strange:
        raise BadInput("the report has %s, which the workload hasn't" % strange[0])
    if len(report.replies) > MOST:
        raise BadInput("more than %d transactions are committed" % MOST)
    replies = {number[name]: tuple(reply) for name, reply in report.replies.items()}
    replies = {n: (kind, tuple(tuple(rows) for rows in queries)) for n, (kind, queries) in replies.items()}
    copies = [] if report.pending else [(f, rows) for (_, f), rows in report.copies.items()]
    order = explaining_order(cat, work, replies, copies)
    return order and [work.txns[n - 1].name for n in order]


def read_inputs(catalogue, workload):
    """The catalogue and the workload of two files."""
    cat = catalogue_at(catalogue)
    return cat, workload_at(workload, cat)


def main():
    asked = parser(__doc__)
    for name in ("report", "workload", "catalogue"):
        asked.add_argument(name, metavar=name.upper())
    asked = asked.parse_args()
    cat, work = read_inputs(asked.catalogue, asked.workload)
    order = judged(read_report(asked.report), cat, work)
    print("explained by the order " + " ".join(order) if order is not None else "no order explains it")
    return 1 if order is None else 0
