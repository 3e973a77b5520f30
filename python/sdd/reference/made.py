"""Made input: the catalogue of a bank, a workload that is drawn from a seed, and the summary of its run.

Numbers are drawn by a linear congruential generator; kind and both accounts are drawn whatever the kind, then how many
deliveries, then each of them. Definition: crates/sdd_make/specs/Draws.antt, Turns.antt, Statements.antt, Bank.antt.
"""
from sdd.model.catalogue import Catalogue, Class, Fragment, Relation
from sdd.model.statements import Assign, Column, Compare, Query, Txn, Update
from sdd.model.words import GREATEST, LEAST
from sdd.model.workload import Event, Site, Workload
from sdd.reference.world import run

BANK = Catalogue(
    3, 3,
    [Relation("account", [("id", "int"), ("owner", "text"), ("bal", "int")], "id")],
    [Fragment("east", "account", LEAST, 999, [1, 3]), Fragment("west", "account", 1000, GREATEST, [2, 3])],
    [Class("eastpay", 1, [("east", 1)], ["east"]), Class("westpay", 2, [("west", 2)], ["west"]),
     Class("book", 3, [("east", 3), ("west", 3)], []), Class("move", 3, [("east", 1), ("west", 2)], ["east", "west"])])
ID, OWNER, BALANCE = Column(0, 0), Column(0, 1), Column(0, 2)


class Draws:
    def __init__(self, seed):
        self.state = seed

    def draw(self, below):
        self.state = (self.state * 1103515245 + 12345) % 2**31
        return self.state // 65536 % below


def addition(by, account):
    return Update("account", (Assign(BALANCE.place, True, by),), (Compare(ID, "=", account),))


def payment(a, b):
    return addition(-1, a), addition(1, b)


def txn_of(number, kind, a, b):
    name = "t%d" % number
    if number % 64 == 0:
        return Txn(name, 1, (Query((OWNER, BALANCE), ("account",), (Compare(BALANCE, ">=", 50),)),))
    if kind == 3:
        return Txn(name, 3, (Query((ID, BALANCE), ("account",), ()),))
    return Txn(name, kind + 1, payment(a + 1000 * (kind == 1), b + 1000 * (kind > 0)))


def delivery(k):
    t, d = Site("T", k % 9 // 3 + 1), Site("D", k % 3 + 1)
    return Event("deliver", a=t, b=d, n=1) if k < 9 else Event("deliver", a=d, b=t, n=1)


def made_workload(seed, count):
    draws, txns, events = Draws(seed), [], []
    for number in range(1, count + 1):
        kind, a, b = draws.draw(4), draws.draw(10), draws.draw(10)
        txns.append(txn_of(number, kind, a, b))
        events.append(Event("submit", txn=number))
        events += [delivery(draws.draw(18)) for _ in range(draws.draw(4))]
    rows = [("account", (first + k, "o", 100)) for first in (0, 1000) for k in range(10)]
    return Workload(rows, txns, [], events + [Event("settle")])


def made_text(seed, count):
    world = run(BANK, made_workload(seed, count))
    kinds = [r.kind for r in world.records]
    return "transactions %d\ncommitted %d\nrejections %d\nwaits %d\nevents %d\nend\n" % (
        count, kinds.count("commit"), kinds.count("reject"), kinds.count("wait"), world.events)
