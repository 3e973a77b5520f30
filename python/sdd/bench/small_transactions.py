"""Random sets of small transactions over three rows, which meet often. A set is a function of a random.Random alone."""
from sdd.model.catalogue import Catalogue, Fragment, Relation
from sdd.model.statements import Assign, Column, Compare, Delete, Put, Query, Txn, Update
from sdd.model.words import GREATEST, LEAST
from sdd.model.workload import Workload

CATALOGUE = Catalogue(1, 1, [Relation("r", [("id", "int"), ("a", "int"), ("b", "int")], "id")],
                      [Fragment("f", "r", LEAST, GREATEST, [1])], [])


def key_is(op, key):
    return Compare(Column(0, 0), op, key)


def statement(rng, deletes):
    key, column, kind = rng.randint(1, 3), rng.choice([1, 2]), rng.random()
    if kind < .5:
        op = "=" if kind < .4 else rng.choice(["<=", ">="])
        return Query((Column(0, 0), Column(0, column)), ("r",), (key_is(op, key),))
    if kind < .8:
        return Update("r", (Assign(column, True, rng.randint(1, 3)),), (key_is("=", key),))
    if kind < .88:
        other = Compare(Column(0, rng.choice([1, 2])), ">=", rng.randint(0, 2))
        return Update("r", (Assign(column, rng.random() < .5, rng.randint(1, 3)),), (key_is("=", key), other))
    if kind < .96 or not deletes:
        return Put("r", (key, rng.randint(5, 9), rng.randint(5, 9)))
    return Delete("r", (key_is("=", key),))


def drawn_set(rng):
    """A workload of one to four transactions over the rows of CATALOGUE, of which some are there."""
    rows = [("r", (key, rng.randint(0, 3), rng.randint(0, 3))) for key in (1, 2, 3) if rng.random() < .85]
    deletes = rng.random() < .3
    txns = [Txn("t%d" % n, 1, tuple(statement(rng, deletes) for _ in range(rng.choice([1, 2, 2, 3]))))
            for n in range(rng.choice([1, 2, 3, 3, 4]))]
    return Workload(rows, txns, [], [])
