"""Workloads with many rows, fragments or modules, and the largest catalogue: a part of sdd make-workload.

Each function takes N and a seed, and returns the lines of a catalogue and those of a workload without its end.
"""
from typing import NamedTuple

from sdd.bench.drawing import Random

COLUMNS = '[{name = "id", kind = "int"}, {name = "val", kind = "int"}, {name = "tag", kind = "text"}]'
RELATIONS = ["item", "part"]


class Piece(NamedTuple):
    """A fragment: `width` keys of its relation, the last one of a relation also all above."""
    name: str
    relation: str
    first: int
    width: int
    is_last: bool
    copies: list


def pieces(random, each, width, dms, copies):
    """Fragments of both relations, `each` of one, whose copies are drawn."""
    made = []
    for relation in RELATIONS:
        for k in range(each):
            at = sorted({random.draw(dms) + 1 for _ in range(copies)})
            made.append(Piece("%s%d" % (relation, k), relation, k * width, width, k == each - 1, at))
    return made


def fragment_lines(made):
    lines = []
    for x in made:
        bounds = (["from = %d" % x.first] if x.first else []) + ([] if x.is_last else ["to = %d" % (x.first + x.width - 1)])
        lines += ["[[fragment]]", 'name = "%s"' % x.name, 'relation = "%s"' % x.relation] + bounds + ["copies = %s" % x.copies]
    return lines


def catalogue(tms, dms, made):
    """Both relations and their fragments."""
    lines = ["tms = %d" % tms, "dms = %d" % dms]
    for name in RELATIONS:
        lines += ["[[relation]]", 'name = "%s"' % name, "columns = %s" % COLUMNS, 'key = "id"']
    return lines + fragment_lines(made)


def class_lines(name, tm, reads, writes):
    """READS are pairs of a fragment and the data module at which it is read."""
    return ["[[class]]", 'name = "%s"' % name, "tm = %d" % tm,
            "reads = [%s]" % ", ".join('{fragment = "%s", at = %d}' % (x.name, at) for x, at in reads),
            "writes = [%s]" % ", ".join('"%s"' % x.name for x in writes)]


def within(part, x):
    """Conditions that keep a use inside a fragment."""
    return ["%d.id >= %d" % (part, x.first)] + ([] if x.is_last else ["%d.id < %d" % (part, x.first + x.width)])


def some(random, items, count):
    """Up to COUNT different ones, in the order of the list."""
    places = {random.draw(len(items)) for _ in range(count)}
    return [items[k] for k in sorted(places)]


# Many modules.

def small_transaction(random, reads, writes):
    """A query of one fragment or a join of two, and a change of one row in each fragment that is written."""
    key = {x.name: x.first + random.draw(20) for x in reads + writes}
    kind, body = random.draw(10), []
    a, b = reads[0], reads[-1]
    if kind < 3:
        body.append("query 1.id 1.val 1.tag from %s where %s" % (a.relation, " and ".join(within(1, a))))
    elif kind < 5 and a != b:
        same = within(1, a) + within(2, b) + ["1.val = 2.val", "2.id > %d" % (key[b.name] - 10)]
        body.append("query 1.id 2.id from %s %s where %s" % (a.relation, b.relation, " and ".join(same)))
    for x in writes:
        if x in reads:
            body.append("update %s set 1.val += %d where 1.id = %d" % (x.relation, random.draw(7) - 3, key[x.name]))
        else:
            body.append('put %s %d %d "t%d"' % (x.relation, key[x.name], random.draw(10), random.draw(10)))
    return body or ["query 1.val from %s where 1.id = %d" % (a.relation, key[a.name])]


def drawn_event(random, tms, dms):
    """Mostly a delivery; else a loss, a repetition, a resend or a tick."""
    t, d = "T%d" % (random.draw(tms) + 1), "D%d" % (random.draw(dms) + 1)
    a, b = (t, d) if random.draw(2) else (d, t)
    if random.draw(25) == 0:
        a, b = [("U", t), (t, "U"), ("U", d), (d, "U")][random.draw(4)]
    kind, place = random.draw(100), 1 if random.draw(5) else random.draw(4) + 1
    if kind < 85:
        return "deliver %s %s %d" % (a, b, place)
    if kind < 96:
        return "%s %s %s %d" % ("lose" if kind < 90 else "repeat", a, b, random.draw(3) + 1)
    return "resend %s %s" % (a, b) if kind < 99 else "tick %s %d" % (t, random.draw(3) + 1)


def net_of_modules(n, seed, modules, fragments, classes):
    """A schedule of N lines: submissions at even distances, drawn events, and a settle after every 500."""
    random = Random(seed)
    made = pieces(random, fragments // 2, 100, modules, 2)
    lines, kinds = catalogue(modules, modules, made), []
    for c in range(classes):
        reads, writes = some(random, made, random.draw(4) + 1), some(random, made, random.draw(3))
        kinds.append((c % modules + 1, reads, writes))
        lines += class_lines("k%d" % c, c % modules + 1, [(x, random.choice(x.copies)) for x in reads], writes)
    count = max(1, min(2048, n // 10))
    work = ['row %s %d %d "t%d"' % (x.relation, x.first + j, random.draw(10), j % 7) for x in made for j in range(20)]
    for k in range(count):
        tm, reads, writes = random.choice(kinds)
        work += ["txn t%d T%d" % (k, tm)] + small_transaction(random, reads, writes) + ["done"]
    events, gap = [], max(1, n // count)
    for k in range(n - 1):
        if k % gap == 0 and k // gap < count:
            events.append("submit t%d" % (k // gap))
        else:
            events.append("settle" if k % 500 == 499 else drawn_event(random, modules, modules))
    return lines, work + events + ["settle"]


def mesh(n, seed):
    return net_of_modules(n, seed, 8, 16, 32)


def fragments(n, seed):
    return net_of_modules(n, seed, 16, 256, 64)


# Many rows.

def filled(random, n):
    """N rows, half of each relation: the values are drawn from as many as there are rows."""
    draw = lambda: (random.draw(2**15) * 2**15 + random.draw(2**15)) % n          # noqa: E731
    return ['row %s %d %d "tag %d"' % (name, k, draw(), k % 100) for name in RELATIONS for k in range(n // 2)]


def rows(n, seed):
    """100 transactions over N rows in 16 fragments, given to four classes that read and write all of them."""
    random, half = Random(seed), max(1, n // 2)
    made = pieces(random, 8, max(1, n // 16), 4, 2)
    lines = catalogue(4, 4, made)
    for c in range(1, 5):
        lines += class_lines("k%d" % c, c, [(x, x.copies[0]) for x in made], made)
    work, few = filled(random, n), n // 40
    for k in range(100):
        a = random.draw(2**15) % half
        body = ["query 1.id 1.val from item where 1.id >= %d and 1.id < %d" % (a, a + 1000),
                "query 1.id from item where 1.val < %d" % few,
                "query 1.id 2.id from item part where 1.val = 2.val and 2.id < %d" % few,
                "query 1.id 2.id 3.id from item part item where 1.val = 2.id and 2.val = 3.id and 1.id < %d" % few,
                "query 1.id 1.val from item", "query 1.tag from part",
                "update item set 1.val += 1 where 1.id = %d" % a, "update part set 1.val += 1",
                'update item set 1.tag = "new" where 1.val > %d' % (n - n // 20), "delete part where 1.id = %d" % a]
        work += ["txn t%d T%d" % (k, k % 4 + 1), body[random.draw(10)], "done"]
    events = [x for k in range(100) for x in ["submit t%d" % k] + ["settle"] * (k % 5 == 4)]
    return lines, work + events


def joins(n, seed):
    """20 joins of two uses and 20 of three over N rows; a twentieth of the rows of the first use takes part."""
    random = Random(seed)
    made = pieces(random, 1, n, 1, 1)
    lines = catalogue(1, 1, made) + class_lines("own", 1, [(x, 1) for x in made], [])
    work, events = filled(random, n), []
    for k in range(40):
        first = random.draw(20) * (n // 40)
        body = "query 1.id 2.id%s where 1.id >= %d and 1.id < %d and 1.val = 2.id" % (
            [" from item part", " 3.tag from item part item"][k % 2], first, first + n // 40)
        work += ["txn t%d T1" % k, body + ["", " and 2.val = 3.val"][k % 2], "done"]
        events.append("submit t%d" % k)
    return lines, work + events + ["settle"]


def texts(n, _):
    """N replies of 4,096 rows with a text of 250 bytes each, a megabyte a reply."""
    made = pieces(Random(1), 1, 4096, 1, 1)
    lines = catalogue(1, 1, made) + class_lines("own", 1, [(x, 1) for x in made], [])
    work = ['row item %d %d "%s"' % (k, k, ("%04d" % k * 63)[:250]) for k in range(4096)]
    for k in range(n):
        work += ["txn q%d T1" % k, "query 1.tag from item", "done"]
    return lines, work + ["submit q%d" % k for k in range(n)] + ["settle"]


def largest(n, _):
    """64 relations of 16 columns, 256 fragments with 16 copies, N classes that read 32 and write all; nothing runs."""
    lines = ["tms = 16", "dms = 16"]
    for k in range(64):
        columns = ", ".join('{name = "column%d", kind = "int"}' % c for c in range(16))
        lines += ["[[relation]]", 'name = "relation%d"' % k, "columns = [%s]" % columns, 'key = "column0"']
    made = [Piece("fragment%d" % k, "relation%d" % (k // 4), k % 4 * 100, 100, k % 4 == 3, list(range(1, 17))) for k in range(256)]
    lines += fragment_lines(made)
    for c in range(n):
        reads = [(made[(c * 4 + k) % 256], k % 16 + 1) for k in range(32)]
        lines += class_lines("class%d" % c, c % 16 + 1, reads, made)
    return lines, []
