"""TATP: the register of a telephone network, and seven kinds of transactions; four of five only read.

A subscriber's facility of a type has the key subscriber * 1000 + type * 100 (+ 99 in the design `merged`), a
forwarding of it that begins at an hour the key subscriber * 1000 + type * 100 + hour.
"""
from sdd.bench.applications.base import Catalogue, Workload, look, put
from sdd.bench.drawing import Random

SUBSCRIBERS, TYPES, HOURS = 20, 4, (0, 8, 16)
MIX = [(35, "subscriber"), (10, "destination"), (35, "access"), (2, "profile"), (14, "location"), (2, "forward"), (2, "unforward")]


def first():
    """A class for each kind of transaction; those that read at T1, those that change at T2."""
    made = Catalogue(2, 2)
    made.relation("subscriber", "id nbr$ bit location")
    made.relation("access", "id data")
    made.relation("facility", "id active data")
    made.relation("forwarding", "id end number$")
    for name, at in (("subscriber", 1), ("access", 1), ("facility", 2), ("forwarding", 2)):
        made.fragment(name + "_all", name, [at])
    made.add_class("get_subscriber", 1, "subscriber_all")
    made.add_class("get_destination", 1, "facility_all forwarding_all")
    made.add_class("get_access", 1, "access_all")
    made.add_class("set_location", 2, "subscriber_all", "subscriber_all")
    made.add_class("set_profile", 2, "subscriber_all facility_all", "subscriber_all facility_all")
    made.add_class("forward", 2, "facility_all", "forwarding_all")
    made.add_class("unforward", 2, "forwarding_all", "forwarding_all")
    return made


def owners():
    """Columns that other transactions change are other relations; one class for all that changes what facilities do."""
    made = Catalogue(3, 2)
    made.relation("subscriber", "id nbr$ bit")
    made.relation("place", "id location")
    made.relation("access", "id data")
    made.relation("facility", "id active data")
    made.relation("forwarding", "id end number$")
    for name, at in (("subscriber", 1), ("place", 1), ("access", 1), ("facility", 2), ("forwarding", 2)):
        made.fragment(name + "_all", name, [at])
    made.add_class("get_subscriber", 1, "subscriber_all place_all")
    made.add_class("get_destination", 1, "facility_all forwarding_all")
    made.add_class("get_access", 1, "access_all")
    made.add_class("roaming", 2, "place_all", "place_all")
    service = "subscriber_all facility_all forwarding_all"
    made.add_class("service", 3, service, service)
    return made


def merged():
    """As `owners`; facilities and their forwardings are rows of one relation."""
    made = Catalogue(3, 2)
    made.relation("subscriber", "id nbr$ bit")
    made.relation("place", "id location")
    made.relation("access", "id data")
    made.relation("service", "id active data end number$")
    for name, at in (("subscriber", 1), ("place", 1), ("access", 1), ("service", 2)):
        made.fragment(name + "_all", name, [at])
    made.add_class("get_subscriber", 1, "subscriber_all place_all")
    made.add_class("get_destination", 1, "service_all")
    made.add_class("get_access", 1, "access_all")
    made.add_class("roaming", 2, "place_all", "place_all")
    made.add_class("service", 3, "subscriber_all service_all", "subscriber_all service_all")
    return made


DESIGNS = {"first": first, "owners": owners, "merged": merged}
USUAL = "merged"


def add_rows(work, design, random):
    for s in range(1, SUBSCRIBERS + 1):
        if design == "first":
            work.row("subscriber", s, "n%d" % s, s % 2, 100 + s)
        else:
            work.row("subscriber", s, "n%d" % s, s % 2)
    for s in range(1, SUBSCRIBERS + 1) if design != "first" else ():
        work.row("place", s, 100 + s)
    for s in range(1, SUBSCRIBERS + 1):
        for kind in range(1, 1 + random.draw(TYPES) + 1):
            work.row("access", s * 10 + kind, random.draw(256))
    for s in range(1, SUBSCRIBERS + 1):
        for kind in range(1, TYPES + 1):
            add_facility(work, design, random, s * 1000 + kind * 100)


def add_facility(work, design, random, base):
    active, data, hour = int(random.draw(100) < 85), random.draw(256), random.choice(HOURS)
    if design == "merged":
        work.row("service", base + 99, active, data, 0, "")
        work.row("service", base + hour, 0, 0, hour + 8, "to%d" % base)
    else:
        work.row("facility", base, active, data)
        work.row("forwarding", base + hour, hour + 8, "to%d" % base)


def destination(design, base, at):
    """The number to which a call is forwarded, where the facility is active."""
    if design == "merged":
        return ["query 2.number from service service where 1.id = %d and 1.active = 1 and 2.id >= %d and 2.id <= %d and 2.end > %d"
                % (base + 99, base, base + at, at)]
    return ["query 2.number from facility forwarding where 1.id = %d and 1.active = 1 and 2.id >= %d and 2.id <= %d and 2.end > %d"
            % (base, base, base + at, at)]


def profile(design, s, base, bit, data):
    relation, key = ("service", base + 99) if design == "merged" else ("facility", base)
    return ["update subscriber set 1.bit = %d where 1.id = %d" % (bit, s), "update %s set 1.data = %d where 1.id = %d" % (relation, data, key)]


def forward(design, s, base, hour):
    if design == "merged":
        return [look("service", "active", base + 99), put("service", base + hour, 0, 0, hour + 8, "via%d" % s)]
    return [look("facility", "active", base), put("forwarding", base + hour, hour + 8, "via%d" % s)]


def make(n, seed, design):
    random = Random(seed)
    catalogue = DESIGNS[design]()
    work = Workload(catalogue, seed)
    add_rows(work, design, random)
    for _ in range(n):
        kind, s, facility = random.weighted(MIX), 1 + random.draw(SUBSCRIBERS), 1 + random.draw(TYPES)
        hour, data = random.choice(HOURS), random.draw(256)
        base = s * 1000 + facility * 100
        place, change = ("subscriber", 2) if design == "first" else ("place", 2)
        service = 2 if design == "first" else 3
        work.transaction(kind, *{
            "subscriber": lambda: (1, [look("subscriber", "nbr bit location", s)] if design == "first" else
                                   [look("subscriber", "nbr bit", s), look("place", "location", s)]),
            "destination": lambda: (1, destination(design, base, hour)),
            "access": lambda: (1, [look("access", "data", s * 10 + facility)]),
            "location": lambda: (change, ["update %s set 1.location = %d where 1.id = %d" % (place, data, s)]),
            "profile": lambda: (service, profile(design, s, base, data % 2, data)),
            "forward": lambda: (service, forward(design, s, base, hour)),
            "unforward": lambda: (service, ["delete %s where 1.id = %d" % ("service" if design == "merged" else "forwarding", base + hour)]),
        }[kind]())
    return catalogue.lines, work.lines()
