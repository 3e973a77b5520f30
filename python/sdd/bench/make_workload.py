"""Writes a made workload of one of several kinds, with its catalogue.

    sdd make-workload KIND [N] [--seed SEED] [--design NAME] --into FOLDER

FOLDER gets the files `catalogue.toml` and `workload`; it is made where there is none. N is how much of it
there is; without N it is what tools/benchmark.py takes, of an application 60. The kinds:

bank       N drawn transactions of a bank in two halves from SEED: transfers within a
           half and between the halves, reports over all, some of no class; between them drawn deliveries
flood      a packet of one link that is repeated N times, and a delivery of each copy
scatter    as `flood`, where each delivery takes a copy at a drawn place of those in flight
resends    N times all unacknowledged messages of a link of 1,024, and a settle that delivers all packets
scans      N queries over 65,536 rows, each of which answers few
replies    N queries that answer 4,096 rows each
texts      as `replies`, where each row has a text of 250 bytes: a megabyte a reply
rows       100 transactions over N rows in 16 fragments at 4 data modules: ranges, scans, joins, changes of one or all
joins      20 queries over two relations and 20 over three uses of them, N rows in both together
mesh       a schedule of N lines with losses, repetitions and resends; N/10 small transactions, 8 by 8 modules, 16
           fragments with up to two copies, 32 classes
fragments  as `mesh` with 16 by 16 modules, 256 fragments and 64 classes
largest    a catalogue at its limits: 64 relations of 16 columns, 256 fragments with 16 copies, N classes that read 32
           fragments and write all; nothing runs
classes    N transactions in the queues of 64 classes, with one fragment for each two of them
readers    as `classes`, where each reads all fragments at 16 data modules, and asks its writers there
undeclared N transactions of no class, each a change and a query, with 64 classes and 16 by 16 modules that copy all
hubs       rings of three, four and six equalities over N rows, of which half lead to one value and half from it
rings      two rings of six equalities over N rows with few values, which have too many answers

Known applications, N drawn transactions each, in several designs (examples/ has a chapter on each):

smallbank  a bank with two branches: first, tellers, branches, together, steps, apart, audit, audit_class, audit_copy
tatp       the register of a telephone network: first, owners, merged
ycsb       reads, changes and scans of one table: first, routed, scanner
tpcc       a wholesale supplier with two warehouses: first, writers, queued, owners, beside
"""
import os
from typing import Callable, NamedTuple

from sdd.bench.applications import smallbank, tatp, tpcc, ycsb
from sdd.bench.dear_joins import hubs, rings
from sdd.bench.drawing import Random
from sdd.bench.large_inputs import fragments, joins, largest, mesh, rows, texts
from sdd.command import count, parser
from sdd.model.files import BadInput, write_text
from sdd.model.spelling import catalogue_text
from sdd.reference.made import BANK


def relation(name, columns):
    shown = ", ".join('{name = "%s", kind = "int"}' % x for x in columns)
    return ["[[relation]]", 'name = "%s"' % name, "columns = [%s]" % shown, 'key = "%s"' % columns[0]]


def one_class(writes):
    """The catalogue of one relation at one module, and one class."""
    return ["tms = 1", "dms = 1"] + relation("acct", ["id", "bal"]) + [
        "[[fragment]]", 'name = "all"', 'relation = "acct"', "copies = [1]", "[[class]]", 'name = "own"', "tm = 1",
        'reads = [{fragment = "all", at = 1}]'] + (['writes = ["all"]'] if writes else [])


def transfer(a, b):
    return ["update account set 1.bal += -1 where 1.id = %d" % a, "update account set 1.bal += 1 where 1.id = %d" % b]


def bank(n, seed):
    """Kind, both accounts and the deliveries are drawn whatever the kind."""
    catalogue, random, events = catalogue_text(BANK).splitlines(), Random(seed), []
    lines = ['row account %d "o" 100' % k for k in list(range(10)) + list(range(1000, 1010))]
    for i in range(1, n + 1):
        kind, a, b = random.draw(4), random.draw(10), random.draw(10)
        site, body = [(1, transfer(a, b)), (2, transfer(1000 + a, 1000 + b)), (3, transfer(a, 1000 + b)),
                      (3, ["query 1.id 1.bal from account"])][kind]
        if i % 64 == 0:
            site, body = 1, ["query 1.owner 1.bal from account where 1.bal >= 50"]
        lines += ["txn t%d T%d" % (i, site)] + body + ["done"]
        events.append("submit t%d" % i)
        for _ in range(random.draw(4)):
            k = random.draw(18)
            t, d = "T%d" % (k % 9 // 3 + 1), "D%d" % (k % 3 + 1)
            events.append("deliver %s %s 1" % ((t, d) if k < 9 else (d, t)))
    return catalogue, lines + events + ["settle"]


def flood(n, _):
    events = ["submit p"] + ["repeat T1 D1 1"] * n + ["deliver T1 D1 1"] * n
    return one_class(True), ["txn p T1", "put acct 1 1", "done"] + events + ["settle"]


def scatter(n, seed):
    """A place is drawn by two numbers, since one is below 2^15."""
    random = Random(seed)
    places = [(random.draw(2**15) * 2**15 + random.draw(2**15)) % (n + 1 - k) + 1 for k in range(n)]
    events = ["submit p"] + ["repeat T1 D1 1"] * n + ["deliver T1 D1 %d" % place for place in places]
    return one_class(True), ["txn p T1", "put acct 1 1", "done"] + events + ["settle"]


def resends(n, _):
    lines = []
    for k in range(1024):
        lines += ["txn p%d T1" % k, "put acct %d 1" % k, "done"]
    return one_class(True), lines + ["submit p%d" % k for k in range(1024)] + ["resend T1 D1"] * n + ["settle"]


def scans(n, _):
    lines = ["row acct %d %d" % (k, k % 1000) for k in range(65536)]
    for k in range(n):
        lines += ["txn q%d T1" % k, "query 1.id from acct where 1.bal = %d and 1.id < 9000" % (k % 1000), "done"]
    return one_class(False), lines + ["submit q%d" % k for k in range(n)] + ["settle"]


def replies(n, _):
    lines = ["row acct %d %d" % (k, k) for k in range(4096)]
    for k in range(n):
        lines += ["txn q%d T1" % k, "query 1.id 1.bal from acct", "done"]
    return one_class(False), lines + ["submit q%d" % k for k in range(n)] + ["settle"]


def sixteen_by_sixteen():
    """The catalogue of one relation in 32 fragments at 16 modules, with no class."""
    catalogue = ["tms = 16", "dms = 16"] + relation("item", ["id", "val"])
    for f in range(32):
        bounds = (["from = %d" % (f * 10)] if f else []) + (["to = %d" % (f * 10 + 9)] if f < 31 else [])
        catalogue += ["[[fragment]]", 'name = "f%d"' % f, 'relation = "item"'] + bounds + ["copies = [%d]" % (f % 16 + 1)]
    return catalogue


def classes(n, _):
    """Each class reads the fragment of the next one and writes its own, so that all stand on one cycle."""
    catalogue = sixteen_by_sixteen()
    for c in range(64):
        f, after = c % 32, (c + 1) % 32
        catalogue += ["[[class]]", 'name = "c%d"' % c, "tm = %d" % (c // 4 + 1),
                      'reads = [{fragment = "f%d", at = %d}]' % (after, after % 16 + 1), 'writes = ["f%d"]' % f]
    lines = []
    for k in range(n):
        f = k % 64 % 32
        lines += ["txn t%d T%d" % (k, k % 64 // 4 + 1), "query 1.val from item where 1.id = %d" % ((f + 1) % 32 * 10),
                  "put item %d %d" % (f * 10, k), "done"]
    return catalogue, lines + ["submit t%d" % k for k in range(n)] + ["settle"]


def readers(n, _):
    """Each class reads all fragments and writes one."""
    catalogue = sixteen_by_sixteen()
    reads = ", ".join('{fragment = "f%d", at = %d}' % (f, f % 16 + 1) for f in range(32))
    for c in range(64):
        catalogue += ["[[class]]", 'name = "c%d"' % c, "tm = %d" % (c // 4 + 1), "reads = [%s]" % reads, 'writes = ["f%d"]' % (c % 32)]
    lines = []
    for k in range(n):
        lines += ["txn t%d T%d" % (k, k % 64 // 4 + 1), "query 1.val from item where 1.val = -1", "put item %d %d" % (k % 32 * 10, k), "done"]
    return catalogue, lines + ["submit t%d" % k for k in range(n)] + ["settle"]


def undeclared(n, _):
    """All copies of both fragments take part in each transaction, with all classes."""
    catalogue, copies = ["tms = 16", "dms = 16"] + relation("acct", ["id", "bal"]), "copies = %s" % list(range(1, 17))
    for name, bound in (("low", "to = 9"), ("high", "from = 10")):
        catalogue += ["[[fragment]]", 'name = "%s"' % name, 'relation = "acct"', bound, copies]
    for c in range(64):
        catalogue += ["[[class]]", 'name = "k%d"' % c, "tm = %d" % (c % 16 + 1), 'reads = [{fragment = "low", at = 1}]']
    lines = []
    for k in range(n):
        lines += ["txn t%d T1" % k, "put acct %d 1" % k, "query 1.bal from acct", "done"]
    return catalogue, lines + ["submit t%d" % k for k in range(n)] + ["settle"]


class Kind(NamedTuple):
    make: Callable          # of N and SEED: the lines of a catalogue and those of a workload without its end
    usual: int              # N where none is given
    most: int


MEASURED = {                # what tools/benchmark.py measures
    "bank": Kind(bank, 2048, 2048),
    "flood": Kind(flood, 100000, 120000),
    "scatter": Kind(scatter, 100000, 120000),
    "resends": Kind(resends, 200, 4000),
    "scans": Kind(scans, 100, 2048),
    "replies": Kind(replies, 200, 2048),
    "texts": Kind(texts, 200, 2048),
    "rows": Kind(rows, 10000, 65536),
    "joins": Kind(joins, 10000, 65536),
    "mesh": Kind(mesh, 10000, 250000),
    "fragments": Kind(fragments, 10000, 250000),
    "largest": Kind(largest, 64, 64),
    "classes": Kind(classes, 2048, 2048),
    "readers": Kind(readers, 2048, 2048),
    "undeclared": Kind(undeclared, 16, 2048),
    "hubs": Kind(hubs, 4000, 65536),
    "rings": Kind(rings, 560, 65536),
}


APPLICATIONS = {"smallbank": (smallbank, 1000), "tatp": (tatp, 2048), "tpcc": (tpcc, 2048), "ycsb": (ycsb, 2048)}    # with the most of N
USUAL_OF_APPLICATIONS = 60


def lines_of(kind, n, seed, design):
    """The lines of the catalogue and of the workload without its end."""
    if kind in APPLICATIONS:
        application, most = APPLICATIONS[kind]
        if design is not None and design not in application.DESIGNS:
            raise BadInput("%s has no design %s; it has %s" % (kind, design, ", ".join(application.DESIGNS)))
        n = USUAL_OF_APPLICATIONS if n is None else n
    elif kind not in MEASURED:
        raise BadInput("%s is no kind; the kinds are %s" % (kind, ", ".join(list(MEASURED) + list(APPLICATIONS))))
    elif design is not None:
        raise BadInput("%s has no designs" % kind)
    else:
        n, most = MEASURED[kind].usual if n is None else n, MEASURED[kind].most
    if n > most:
        raise BadInput("of %s N is at most %d" % (kind, most))
    if kind in MEASURED:
        return MEASURED[kind].make(n, seed)
    return application.make(n, seed, design or application.USUAL)


def write_workload(folder, kind, n=None, seed=1, design=None):
    """The paths of the two files that are written; the folder is made where there is none."""
    catalogue, lines = lines_of(kind, n, seed, design)
    os.makedirs(folder, exist_ok=True)
    paths = [os.path.join(folder, x) for x in ("catalogue.toml", "workload")]
    for path, text in zip(paths, (catalogue, lines + ["end"])):
        write_text(path, "".join(x + "\n" for x in text))
    return paths


def main():
    asked = parser(__doc__)
    asked.add_argument("kind", metavar="KIND")
    asked.add_argument("n", metavar="N", nargs="?", type=count)
    asked.add_argument("--seed", type=count, default=1, help="where the drawn numbers begin, below 2^31")
    asked.add_argument("--design", metavar="NAME", help="of an application: one of its designs")
    asked.add_argument("--into", metavar="FOLDER", required=True)
    asked = asked.parse_args()
    if asked.seed >= 2**31:
        raise BadInput("SEED is below 2^31")
    write_workload(asked.into, asked.kind, asked.n, asked.seed, asked.design)
