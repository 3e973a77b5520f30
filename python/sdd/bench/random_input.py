"""Random catalogues, workloads and schedules, for tools/fuzz.py. Each is a function of a random.Random alone.

A schedule is drawn while the reference carries it out, so that most events find something to do.
"""
from sdd.model.catalogue import Catalogue, Class, Fragment, Relation
from sdd.model.statements import Assign, Column, Compare, Delete, Put, Query, Same, Txn, Update
from sdd.model.words import GREATEST, LEAST, OPERATORS
from sdd.model.workload import Event, Site, Workload, sites_of
from sdd.reference.world import World

TEXTS = ["", "a", "b", "ab", 'q"t', "b\\s", "é", "z z", "\t"]
NUMBERS = [-3, -1, 0, 1, 2, 3, 5, 7, 8, 11, GREATEST, LEAST]


def some(rng, items, least=0, most=None):
    """A random part of the items, in a random order."""
    items = list(items)
    most = len(items) if most is None else min(most, len(items))
    return rng.sample(items, rng.randint(min(least, most), most))


# Catalogues.

def catalogue(rng, most_classes=6):
    tms, dms = rng.choice([1, 2, 2, 3, 4]), rng.choice([1, 2, 2, 3, 4])
    relations = []
    for k in range(rng.choice([1, 1, 1, 2])):
        columns = [("id", "int")] + [("c%d" % n, rng.choice(["int", "int", "text"])) for n in range(rng.randint(0, 3))]
        rng.shuffle(columns)
        relations.append(Relation("r%d" % k, columns, "id"))
    fragments = []
    for relation in relations:
        cuts = sorted(rng.sample(range(0, 9), rng.choice([0, 0, 1, 1, 2])))
        for low, high in zip([LEAST] + cuts, [c - 1 for c in cuts] + [GREATEST]):
            copies = some(rng, range(1, dms + 1), 1)
            fragments.append(Fragment("f%d" % len(fragments), relation.name, low, high, copies))
    if rng.random() < 0.2:
        rng.shuffle(fragments)
    classes = [a_class(rng, "k%d" % k, tms, fragments) for k in range(rng.randint(0, most_classes))]
    return Catalogue(tms, dms, relations, fragments, classes)


def busy_catalogue(rng):
    """Few fragments, and classes that all meet there."""
    tms, dms = rng.choice([2, 3, 4]), rng.choice([1, 2, 2, 3])
    relation = Relation("r0", [("id", "int"), ("c0", "int"), ("c1", "text")], "id")
    cuts = [4] * rng.choice([0, 1, 1])
    bounds = zip([LEAST] + cuts, [c - 1 for c in cuts] + [GREATEST])
    fragments = [Fragment("f%d" % k, "r0", low, high, some(rng, range(1, dms + 1), 1)) for k, (low, high) in enumerate(bounds)]
    classes = []
    for k in range(rng.randint(2, 6)):
        reads = [(f.name, rng.choice(f.copies)) for f in fragments] if rng.random() < 0.6 else []
        writes = [f.name for f in some(rng, fragments, 1)] if rng.random() < 0.7 or not reads else []
        classes.append(Class("k%d" % k, rng.randint(1, tms), reads, writes))
    return Catalogue(tms, dms, [relation], fragments, classes)


def a_class(rng, name, tms, fragments):
    reads = [(f.name, rng.choice(f.copies)) for f in some(rng, fragments, rng.choice([0, 1, 1]), 3)]
    either = [f for f, _ in reads] if rng.random() < 0.4 else [f.name for f in fragments]
    return Class(name, rng.randint(1, tms), reads, some(rng, either, rng.choice([0, 1]), 2))


# Transactions.

def value(rng, kind):
    return rng.choice(TEXTS) if kind == "text" else rng.choice(NUMBERS[:10] if rng.random() < 0.97 else NUMBERS)


def key(rng, low=LEAST, high=GREATEST):
    near = [k for k in range(-2, 12) if low <= k <= high]
    return rng.choice(near) if near else low


def row(rng, relation, low=LEAST, high=GREATEST):
    return tuple(key(rng, low, high) if name == relation.key else value(rng, kind) for name, kind in relation.columns)


def within(relation, part, fragment):
    """Conditions that leave the keys of a fragment."""
    column, conds = Column(part, relation.key_place), []
    if fragment.low != LEAST:
        conds.append(Compare(column, ">=", fragment.low))
    if fragment.high != GREATEST:
        conds.append(Compare(column, "<=", fragment.high))
    return conds


def condition(rng, cat, relations):
    part = rng.randrange(len(relations))
    relation = cat.relation[relations[part]]
    place = rng.randrange(len(relation.columns))
    kind = relation.columns[place][1]
    others = [Column(p, k) for p, name in enumerate(relations) for k, (_, other) in enumerate(cat.relation[name].columns)
              if other == kind]
    if len(relations) > 1 and rng.random() < 0.7:
        return Same(Column(part, place), rng.choice(others))
    return Compare(Column(part, place), rng.choice(OPERATORS), value(rng, kind))


def query(rng, cat, fragments):
    """A query over these fragments."""
    parts = [rng.choice(fragments) for _ in range(rng.choice([1, 1, 2, 2, 3]))]
    relations = tuple(f.relation for f in parts)
    conds = [c for p, f in enumerate(parts) for c in within(cat.relation[f.relation], p, f)]
    conds += [condition(rng, cat, relations) for _ in range(rng.choice([0, 1, 2, 3]))]
    rng.shuffle(conds)
    every = [Column(p, k) for p, name in enumerate(relations) for k in range(len(cat.relation[name].columns))]
    return Query(tuple(rng.choice(every) for _ in range(rng.randint(1, 3))), relations, tuple(conds))


def change(rng, cat, fragment):
    relation = cat.relation[fragment.relation]
    conds = within(relation, 0, fragment)
    if rng.random() < 0.6:
        conds.append(Compare(Column(0, relation.key_place), "=", key(rng, fragment.low, fragment.high)))
    if rng.random() < 0.3:
        conds.append(condition(rng, cat, (relation.name,)))
    free = [k for k in range(len(relation.columns)) if k != relation.key_place]
    if not free or rng.random() < 0.3:
        return Delete(relation.name, tuple(conds))
    assigns = []
    for place in [rng.choice(free) for _ in range(rng.choice([1, 1, 2]))]:
        kind = relation.columns[place][1]
        adds = kind == "int" and rng.random() < 0.6
        assigns.append(Assign(place, adds, value(rng, kind)))
    return Update(relation.name, tuple(assigns), tuple(conds))


def put(rng, cat, fragment):
    relation = cat.relation[fragment.relation]
    return Put(relation.name, row(rng, relation, fragment.low, fragment.high))


def transaction(rng, cat, name, classes):
    """One of a class mostly, else anything."""
    if not classes or rng.random() < 0.12:
        tm, reads = rng.randint(1, cat.tms), list(cat.fragments)
        writes = both = reads
    else:
        c = rng.choice(classes)
        tm, reads, writes = c.tm, [cat.fragment[f] for f, _ in c.reads], [cat.fragment[f] for f in c.writes]
        both = [f for f in reads if f in writes]
    statements = []
    for _ in range(rng.choice([0, 1, 1, 1, 1, 2, 2, 3])):
        ways = [x for x in ((query, reads), (query, reads), (put, writes), (put, writes), (change, both)) if x[1]]
        if ways:
            make, fragments = rng.choice(ways)
            statements.append(query(rng, cat, fragments) if make == query else make(rng, cat, rng.choice(fragments)))
    return Txn(name, tm, tuple(statements))


# Workloads.

def workload(rng, with_lists=False):
    """A catalogue and a workload for it, without events."""
    cat = busy_catalogue(rng) if rng.random() < 0.5 else catalogue(rng)
    rows = [(r.name, row(rng, r)) for r in cat.relations for _ in range(rng.choice([0, 4, 8, 16]))]
    rng.shuffle(rows)
    lists, made = [], 0
    for _ in range(rng.randint(1, 3) if with_lists else 0):
        count = rng.randint(0, 3)
        lists.append([a_class(rng, "n%d" % (made + k), cat.tms, cat.fragments) for k in range(count)])
        made += count
    classes = cat.classes + [c for part in lists for c in part]
    txns = [transaction(rng, cat, "t%d" % k, classes) for k in range(1, rng.choice([2, 4, 8, 16, 24]))]
    return cat, Workload(rows, txns, lists, [])


def schedule(rng, cat, work, length):
    """The workload with events, most of which find something to do."""
    world = World(cat, work)
    left = list(range(1, len(work.txns) + 1))
    rng.shuffle(left)
    lists, events = len(work.lists), []
    for _ in range(length):
        event = an_event(rng, world, left, lists)
        if event.word == "submit":
            left.remove(event.txn)
        lists -= event.word == "redeclare"
        events.append(event)
        for _ in world.settle(0) if event.word in ("settle", "redeclare") else ():
            pass
        if event.word != "settle":
            world.carry_out(event, 0, 0)
    return work._replace(events=events)


def an_event(rng, world, left, lists):
    flying = [(link, way) for link, way in world.links.ways.items() if way.flight]
    still = [link for link, way in world.links.ways.items() if way.unacked()]
    x = rng.random()
    if left and (x < 0.16 or not flying):
        return Event("submit", txn=rng.choice(left))
    if lists and x < 0.2 and not world.down:
        return Event("redeclare")
    if x < 0.24 and still:
        a, b = rng.choice(still)
        return Event("resend", a=a, b=b)
    if x < 0.27:
        return Event("tick", a=Site("T", rng.randint(1, world.cat.tms)), n=rng.choice([1, 1, 2, 5, 2**20]))
    if x < 0.31:
        return a_turn(rng, world)
    if x < 0.325:
        return Event("settle")
    if not flying and not still and rng.random() < 0.8:
        return Event("settle")
    if x < 0.34 or not flying:
        a, b = rng.choice(list(world.links.ways))
        word = rng.choice(["deliver", "lose", "repeat", "resend"])
        return Event(word, a=a, b=b, n=0 if word == "resend" else rng.randint(1, 3))
    (a, b), way = rng.choice(flying if rng.random() < 0.5 else flying[-3:])
    word = "deliver" if x < 0.9 else rng.choice(["lose", "repeat"])
    return Event(word, a=a, b=b, n=1 if rng.random() < 0.7 else rng.randint(1, len(way.flight)))


def a_turn(rng, world):
    """A module of either kind goes down or comes up; one that is down is drawn more often, so that outages end."""
    down = sorted(world.down, key=lambda site: site.rank)
    site = rng.choice(down if down and rng.random() < 0.4 else sites_of(world.cat)[1:])
    is_down = site in world.down
    return Event("up" if is_down != (rng.random() < 0.1) else "down", a=site)


def scheduled(rng, with_lists=False):
    """A catalogue and a workload with a schedule."""
    cat, work = workload(rng, with_lists)
    work = schedule(rng, cat, work, rng.choice([3, 10, 20, 40, 80, 120]))
    if rng.random() < 0.6:
        work = work._replace(events=work.events + [Event("settle")])
    return cat, work


def submitted_all(rng, work):
    """The workload with its transactions submitted in some order."""
    order = some(rng, range(1, len(work.txns) + 1))
    return work._replace(events=[Event("submit", txn=n) for n in order])
