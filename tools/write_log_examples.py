#!/usr/bin/env python3
"""Writes crates/sdd_log_examples/specs: the logs of worked workloads, computed by the reference (`sdd reference`).

    tools/write_log_examples.py [--check] [--out FOLDER]
    tools/write_log_examples.py --random FIRST COUNT --file FILE [--longest N]

The first form writes the workloads of log_examples.py, each with the equation that the definitions' log has the
reference's history, number of entries and number of events, and is complete; `rt fmt` in crates/sdd_log_examples lays
them out, and `rt check` computes them. With --check nothing is written: it ends with 1 where a file of FOLDER would be another.
With --random the logs of COUNT random workloads from the seed FIRST on, with losses, repetitions, undeclared
transactions, reducers, further class lists and modules that are down, are written to one FILE, which is
for a check by hand and stays out of the repository; logs of more than N entries (220 where it isn't given)
are left out.
"""
import argparse
import os
import random
import re
import sys

import sdd_path  # noqa: F401
from log_examples import LOGS
from sdd.bench import random_input
from sdd.model.catalogue import read_catalogue
from sdd.model.statements import Compare, Put, Query, Update
from sdd.model.workload import read_workload
from sdd.reference.graph import protocol_table
from sdd.reference.redeclare import eras as eras_of
from sdd.reference.world import World

HERE = os.path.dirname(os.path.abspath(__file__))

OPERATORS = {"=": "Eq", "!=": "Ne", "<": "Lt", "<=": "Le", ">": "Gt", ">=": "Ge"}
OF_ALL = (
    "Add Answer Apply Arrive Catalogue Commit Const D Delete Deliver Down Eq Ge Gt Input Int Le Log Lose Lt Nothing Overflow P1 P2 P3 Pass Put "
    "Query Redeclare Repeat Resend Rows Same Settle Start Submit T Tick U Up Update Wait class_no dm_no extended frag_no history marks next "
    "rel_no time_at tm_no txn_no"
)
IMPORTS = [
    ("Rattle.std.specs.Prelude", "ℕ ◌≡◌ pos negsuc true false List [] ◌∷◌ length Some None refl"),
    ("Rattle.sdd_log.specs.All", OF_ALL),
    ("Rattle.sdd_graph.specs.declared.edge.Edge.TheVariants", "Vertical Horizontal Diagonal"),
    # what follows `All` doesn't pass on
    ("Rattle.sdd_log.specs.history.declared.record.Rec.TheVariants", "Submit=Submission Reject"),
    ("Rattle.sdd_log.specs.base.declared.value.Value.TheVariants", "Text"),
    ("Rattle.sdd_log.specs.base.declared.restriction.Op.TheVariants", "Ne"),
    ("Rattle.sdd_log.specs.base.declared.reply.Reply.TheVariants", "TooMany"),
    ("Rattle.sdd_log.specs.lang.declared.assign.Assign.TheVariants", "To"),
]


def listed(items):
    """A list on one line."""
    items = list(items)
    return "(" + " ∷ ".join(items + ["[]"]) + ")" if items else "[]"


def lines(items, indent):
    """A list with one member a line."""
    return "\n".join(" " * indent + item + " ∷" for item in items) + ("\n" if items else "") + " " * indent + "[]"


def fields(**values):
    return "(record { " + "; ".join("%s = %s" % v for v in values.items()) + " })"


def whole(n):
    return "(pos %d)" % n if n >= 0 else "(negsuc %d)" % (-n - 1)


def value(v):
    return "(Int %s)" % whole(v) if isinstance(v, int) else "(Text %s)" % listed(str(b) for b in v.encode())


def row(r):
    return listed(value(v) for v in r)


def number(kind, n):
    return "(%s %d)" % (kind, n)


def rel(n):
    return number("rel_no", n)


def ref(c):
    return fields(part=c.part + 1, column=c.place + 1)


def condition(c):
    if isinstance(c, Compare):
        return "(Const %s %s %s)" % (ref(c.column), OPERATORS[c.op], value(c.value))
    return "(Same %s %s)" % (ref(c.left), ref(c.right))


def assign(a):
    return "(Add %d %s)" % (a.place + 1, whole(a.value)) if a.adds else "(To %d %s)" % (a.place + 1, value(a.value))


def site(s):
    return "U" if s.kind == "U" else "(%s (%s %d))" % (s.kind, {"T": "tm_no", "D": "dm_no"}[s.kind], s.number)


def event(e):
    words = [e.word.capitalize()]
    if e.word == "submit":
        words.append(number("txn_no", e.txn))
    elif e.word == "tick":
        words.append(number("tm_no", e.a.number))
    elif e.a:
        words += [site(x) for x in (e.a, e.b) if x]
    return " ".join(words + ([str(e.n)] if e.n else []))


class Numbers:
    """What the definitions know by numbers, and the reference by names."""

    def __init__(self, cat):
        self.relation = {r.name: k for k, r in enumerate(cat.relations, 1)}
        self.fragment = {f.name: k for k, f in enumerate(cat.fragments, 1)}
        self.fragment_of = cat.fragment_of

    def rel(self, name):
        return rel(self.relation[name])

    def frag(self, name):
        return number("frag_no", self.fragment[name])

    def frags(self, names):
        return listed(map(self.frag, names))

    def statement(self, s):
        if isinstance(s, Put):
            return "(Put %s %s)" % (self.rel(s.relation), row(s.row))
        conds = listed(map(condition, s.conds))
        if isinstance(s, Query):
            return "(Query %s %s %s)" % (listed(map(ref, s.columns)), listed(map(self.rel, s.relations)), conds)
        if isinstance(s, Update):
            return "(Update %s %s %s)" % (self.rel(s.relation), listed(map(assign, s.assigns)), conds)
        return "(Delete %s %s)" % (self.rel(s.relation), conds)

    def use(self, u):
        restrictions = listed(fields(column=c.column.place + 1, op=OPERATORS[c.op], value=value(c.value)) for c in u.conds)
        return fields(number=u.number, rel=self.rel(u.relation), frags=self.frags(u.fragments), restrictions=restrictions)

    def cond(self, c):
        return fields(**{"class": number("class_no", c.cls), "time": number("time_at", c.time), "frags": self.frags(c.fragments)})

    def changes(self, changes):
        """By fragment and then by key."""
        placed = [(self.fragment[self.fragment_of(*item)], item[1], new) for item, new in changes.items()]
        return listed(fields(frag=number("frag_no", f), key=whole(key), row="None" if new is None else "(Some %s)" % row(new))
                      for f, key, new in sorted(placed, key=lambda x: x[:2]))

    def record(self, r):
        txn, cls, dm = number("txn_no", r.txn), number("class_no", r.cls), number("dm_no", r.dm)
        time = number("time_at", r.time)
        if r.kind == "nothing":
            return "Nothing"
        if r.kind == "submit":
            return "Submission " + txn
        if r.kind == "pass":
            return " ".join(["Pass", cls, dm, time])
        if r.kind == "start":
            p2 = "None" if r.p2 is None else "(Some %s)" % number("time_at", r.p2)
            return "Start %s %d %s %s %s %s" % (txn, r.attempt, cls, time, p2, listed(map(self.use, r.uses)))
        if r.kind == "commit":
            return "Commit %s %d %s %s %d %d" % (txn, r.attempt, reply(r.reply), self.changes(r.changes), r.values, r.rows)
        if r.kind == "apply":
            return " ".join(["Apply", txn, cls, dm, time])
        more = {"wait": " " + listed(map(self.cond, r.conds)), "reject": " %s %s" % (cls, time)}.get(r.kind, "")
        return "%s %s %d %s%s" % (r.kind.capitalize(), txn, r.attempt, dm, more)


def reply(r):
    if r.kind == "ok":
        return "(Rows %s)" % listed(listed(map(row, a)) for a in r.answers)
    return {"overflow": "Overflow", "toomany": "TooMany"}[r.kind]


def catalogue(c, name):
    def column(x):
        return fields(name="[]", kind="kinds.Int" if x[1] == "int" else "kinds.Text")

    numbers = Numbers(c)
    relations = [fields(name="[]", columns=listed(map(column, r.columns)), key=r.key_place + 1) for r in c.relations]
    fragments = [
        fields(name="[]", rel=numbers.rel(f.relation), least=whole(f.low), greatest=whole(f.high),
               copies=listed(number("dm_no", d) for d in f.copies))
        for f in c.fragments
    ]
    classes = [
        fields(name="[]", tm=number("tm_no", k.tm),
               reads=listed(fields(fragment=numbers.frag(f), at=number("dm_no", d)) for f, d in k.reads), writes=numbers.frags(k.writes))
        for k in c.classes
    ]
    return "abbrev pub %s : Catalogue\n%s = record {\n  tms = %d;\n  dms = %d;\n  relations =\n%s;\n  fragments =\n%s;\n  classes =\n%s;\n}\n" % (
        name, name, c.tms, c.dms, lines(relations, 6), lines(fragments, 6), lines(classes, 6))


def edge(e, numbers):
    of = [number("class_no", n) for n in (e.i, e.j) if n] + ([numbers.frag(e.fragment)] if e.fragment else [])
    return "(%s %s)" % (e.kind.capitalize(), " ".join(of))


def table(c):
    numbers = Numbers(c)
    return [fields(edge=edge(e.edge, numbers), block=e.block, protocol=e.protocol if e.edge.kind == "diagonal" else "P1")
            for e in protocol_table(c)]


class Counted(World):
    """A world that counts the entries of its log: marks, rounds, submissions, notes, hands, and what sites do."""

    def __init__(self, cat, work, rows):
        super().__init__(cat, work, rows)
        self.entries, rounds = 0, set()
        for happened in self.happens():
            rounds.add((happened.of, happened.round))
            self.entries += 1 + (happened.event.word == "submit") + (happened.found in (None, False))
        self.entries += sum(1 for _, number in rounds if number)

    def note(self, site, record, sends):
        self.entries += 1
        super().note(site, record, sends)

    def hand_over(self):
        handed = super().hand_over()
        self.entries += len(handed)
        return handed


def written(name, shows, first, work, apart=None):
    """The definitions and equations of one log, of the workload's rows or of those of each data module."""
    world = Counted(first, work, apart)
    eras, numbers, count = eras_of(first, work.lists), Numbers(first), world.entries
    text = "" if shows is None else "-- %s\n\n" % shows
    whole_cat = "catalogue_of_" + name
    same = len(eras) == 1
    text += catalogue(world.cat, whole_cat)
    names = [whole_cat] if same else ["classes_of_%s_%d" % (name, k) for k in range(len(eras))]
    if not same:
        text += "".join("\n" + catalogue(era, n) for era, n in zip(eras, names))
    each = [listed("(%s, %s)" % (numbers.rel(r), row(x)) for r, x in rows) for rows in apart or [work.rows] * first.dms]
    txns = [fields(name="[]", tm=number("tm_no", t.tm), statements=listed(map(numbers.statement, t.statements))) for t in work.txns]
    given = ["(record {\n        catalogue = %s;\n        table =\n%s;\n      })" % (n, lines(table(era), 12)) for n, era in zip(names, eras)]
    text += "\nabbrev pub input_of_%s : Input\ninput_of_%s = record {\n  catalogue = %s;\n  eras =\n%s;\n  rows = %s;\n  txns =\n%s;\n  events =\n%s;\n}\n" % (
        name, name, whole_cat, lines(given, 6), listed(each), lines(txns, 6), lines(map(event, work.events), 6))
    text += "\nabbrev pub log_of_%s : Log\nlog_of_%s = extended %d input_of_%s []\n" % (name, name, count, name)
    history = lines(["(%d, %s)" % (r.event, numbers.record(r)) for r in world.records], 4)
    text += "\npub history_of_%s :\n    history log_of_%s ≡\n%s\nhistory_of_%s = refl\n" % (name, name, history, name)
    text += "\npub all_of_%s : (next input_of_%s log_of_%s ≡ None) × (length log_of_%s ≡ %d) × (marks log_of_%s ≡ %d)\nall_of_%s = (refl, refl, refl)\n" % (
        name, name, name, name, count, name, world.events, name)
    return text, count


def imported(body):
    """The `use` lines of what the body names."""
    words = set(re.findall(r"[A-Za-z_][A-Za-z_0-9]*", re.sub(r"--.*", "", body)))
    head = ""
    for module, names in IMPORTS:
        used = []
        for name in names.split():
            there, _, here = name.partition("=")
            symbol = {"◌≡◌": "≡", "◌∷◌": "∷", "[]": "[]"}.get(there)
            if (symbol and symbol in body) or (here or there) in words:
                used.append(there + (" as " + here if here else ""))
        if used:
            head += "use %s.{%s}\n" % (module, ", ".join(used))
    if "kinds." in body:
        head += "use Rattle.sdd_log.specs.catalog.declared.parts.Kind.TheVariants as kinds\n"
    return head


def random_logs(first, wanted, longest):
    """The text of the logs of random workloads, and how many entries they have."""
    parts, seed, entries = [], first, 0
    while len(parts) < wanted:
        rng = random.Random(seed)
        cat, work = random_input.scheduled(rng, rng.random() < 0.3)
        text, count = written("seed_%d" % seed, None, cat, work)
        seed += 1
        if count <= longest:
            parts.append(text)
            entries += count
    print("%d logs, %d entries, seeds %d to %d" % (len(parts), entries, first, seed - 1))
    return "\n".join(parts)


def worked_logs():
    """The text of each module."""
    modules = {}
    for name, module, shows, catalogue_text, work, *apart in LOGS:
        cat = read_catalogue(catalogue_text.encode())
        rows = [read_workload(cat, (part + "end\n").encode()).rows for part in apart[0]] if apart else None
        text, count = written(name, shows, cat, read_workload(cat, work.encode()), rows)
        modules.setdefault(module, []).append(text)
        print("%s.%s: %d entries" % (module, name, count))
    return {module: "\n".join(parts) for module, parts in modules.items()}


def broken(body):
    """The same text, each line of more than 160 characters broken behind a member of a list or of a record, or before a ×."""
    parts = []
    for line in body.split("\n"):
        indent = " " * (len(line) - len(line.lstrip()) + 4)
        while len(line) > 160:
            ends = [found.end() for found in re.finditer(r" ∷(?= )|;(?= )|(?= × )", line[:150]) if found.end() > len(indent)]
            if not ends:
                break
            parts.append(line[: ends[-1]])
            line = indent + line[ends[-1]:].lstrip()
        parts.append(line)
    return "\n".join(parts)


def plain(text):
    """The text without its layout, which `rt fmt` gives to the lines that were broken."""
    return re.sub(r"[;,](?=[)}])", "", "".join(text.split()))


def text_of(about, body):
    return "-- %s\n" % about + imported(body) + "\n" + broken(body)


def write(path, about, body):
    with open(path, "w", encoding="utf-8", newline="\n") as out:
        out.write(text_of(about, body))


def differs(path, about, body):
    with open(path, encoding="utf-8") as there:
        return plain(there.read()) != plain(text_of(about, body))


def main():
    asked = argparse.ArgumentParser(description=__doc__, formatter_class=argparse.RawDescriptionHelpFormatter, usage=argparse.SUPPRESS)
    asked.add_argument("--check", action="store_true")
    asked.add_argument("--out", metavar="FOLDER", default=os.path.join(HERE, "..", "crates", "sdd_log_examples", "specs"))
    asked.add_argument("--random", nargs=2, type=int, metavar=("FIRST", "COUNT"))
    asked.add_argument("--file", metavar="FILE")
    asked.add_argument("--longest", type=int, default=220, metavar="N")
    asked = asked.parse_args()
    if (asked.random is None) != (asked.file is None):
        print("write_log_examples.py: --random and --file go together", file=sys.stderr)
        return 2
    if asked.random:
        write(asked.file, "Logs of random workloads.", random_logs(*asked.random, asked.longest))
        return 0
    different = 0
    for module, body in worked_logs().items():
        path = os.path.normpath(os.path.join(asked.out, module + ".antt"))
        about = "Worked logs, written by tools/write_log_examples.py."
        if not asked.check:
            write(path, about, body)
        elif differs(path, about, body):
            different += 1
            print("%s would be another" % path)
    return 1 if different else 0


if __name__ == "__main__":
    sys.exit(main())
