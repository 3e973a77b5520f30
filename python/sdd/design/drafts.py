"""A design that is changed: its catalogue and its workload, as they would be written, and what its transactions touch.

    draft = read_draft(catalogue, workload)
    other = draft.changed(); other.parts["class"].pop(); other.script.transactions[0].site = "T2"
    other.design()                      # a Design (milliseconds.py); BadInput where it is none
"""
import copy
import re
import tomllib

from sdd.design.milliseconds import Design, demand_read
from sdd.design.shrinking import format_catalogue
from sdd.model import catalogue, words, workload
from sdd.model.files import BadInput, text_of
from sdd.reference import plain

WORD = re.compile(r'"(?:[^"\\]|\\.)*"|[^ ]+')


class Transaction:
    def __init__(self, name, site, lines):
        self.name, self.site, self.lines, self.origin = name, site, lines, site     # origin: where it comes from


class Script:
    """The lines of a workload: rows, transactions, events."""

    def __init__(self, path):
        self.rows, self.transactions, self.events = [], [], []
        mine = None
        for line in text_of(path).split("\n")[:-1]:
            found = line.split(" ")
            if mine is not None and line == "done":
                mine = None
            elif mine is not None:
                mine.lines.append(line)
            elif found[0] == "list":
                raise BadInput("%s: further class lists aren't changed here; take them out" % path)
            elif found[0] == "txn":
                mine = Transaction(found[1], found[2], [])
                self.transactions.append(mine)
            else:
                (self.rows if found[0] == "row" else self.events).append(line)
        self.events = [x for x in self.events if x.split(" ")[0] not in ("deliver", "lose", "repeat", "resend")]

    def copied(self):
        """Another script with the same lines: a transaction gets other lines, and never has them changed in place."""
        made = copy.copy(self)
        made.rows, made.events, made.transactions = list(self.rows), list(self.events), [copy.copy(x) for x in self.transactions]
        return made

    def text(self):
        lines = list(self.rows)
        for x in self.transactions:
            lines += ["txn %s %s" % (x.name, x.site), *x.lines, "done"]
        return "".join(line + "\n" for line in lines + self.events)


def copied(value):
    """The parts of a catalogue once more."""
    if isinstance(value, dict):
        return {k: copied(x) for k, x in value.items()}
    return [copied(x) for x in value] if isinstance(value, list) else value


class Draft:
    def __init__(self, parts, script, works):
        self.parts, self.script, self.works, self.made = parts, script, works, {}

    def changed(self):
        return Draft(copied(self.parts), self.script.copied(), self.works)

    def catalogue_text(self):
        return format_catalogue(self.parts)

    def once(self, name, make):
        """What is worked out once: a draft isn't changed any more then."""
        if name not in self.made:
            self.made[name] = make()
        return self.made[name]

    def design(self):
        return self.once("design", self.make_design)

    def make_design(self):
        cat = catalogue_of(self.parts)
        key = self.work_key()
        if key not in self.works:
            try:
                self.works[key] = workload.read_workload(cat, self.script.text().encode())
            except words.Fault as fault:
                raise BadInput(fault.line) from None
        return Design("", "", cat, self.works[key])

    def work_key(self):
        """What the workload is read by."""
        return self.once("work_key", lambda: hash((str(self.parts["relation"]), self.parts["tms"], self.script.text())))

    def key(self):
        """What tells it from other drafts."""
        return hash((str(self.parts), self.work_key()))

    # What stands in the catalogue.

    def classes(self):
        return self.parts.get("class", [])

    def find(self, part, name):
        return next(x for x in self.parts[part] if x["name"] == name)

    def free_name(self, part, wish):
        """A name of 32 letters at most that no other has."""
        have, name, k = {x["name"] for x in self.parts.get(part, [])}, wish[:30], 2
        while name in have:
            name, k = "%s%d" % (wish[:28], k), k + 1
        return name

    def drop_empty(self):
        """Without the classes that neither read nor write."""
        self.parts["class"] = [x for x in self.classes() if reads(x) or writes(x)]

    # What the transactions do.

    def class_of(self):
        """Transaction -> the name of its class, or None."""
        return self.once("class_of", self.make_class_of)

    def make_class_of(self):
        cat, found = self.design().cat, {}
        for x in self.design().work.txns:
            reading, writing = map(set, self.footprints()[x.name])
            found[x.name] = next((c.name for c, at in zip(cat.classes, cat.reads)
                                  if c.tm == x.tm and reading <= set(at) and writing <= set(c.writes)), None)
        return found

    def submitted(self):
        work = self.design().work
        return [work.txns[n - 1] for n in work.submitted()]

    def members(self):
        """Class -> its transactions, of those that are submitted."""
        made = {x["name"]: [] for x in self.classes()}
        for x in self.submitted():
            if self.class_of()[x.name]:
                made[self.class_of()[x.name]].append(x.name)
        return made

    def footprints(self):
        """Transaction -> the fragments that it reads, and those that it writes."""
        cat = self.design().cat
        key = "footprints", self.work_key(), str([(f.name, f.relation, f.low, f.high) for f in cat.fragments])
        if key not in self.works:
            self.works[key] = {x.name: (plain.fragments_read(cat, x), plain.fragments_written(cat, x)) for x in self.design().work.txns}
        return self.works[key]

    def undeclared(self):
        return sum(self.class_of()[x.name] is None for x in self.submitted())


def catalogue_of(parts):
    """The catalogue that these parts of a file make."""
    made = catalogue.Catalogue(
        parts["tms"], parts["dms"],
        [catalogue.Relation(x["name"], [(c["name"], c["kind"]) for c in x["columns"]], x["key"]) for x in parts["relation"]],
        [catalogue.Fragment(x["name"], x["relation"], x.get("from", words.LEAST), x.get("to", words.GREATEST), list(x["copies"])) for x in parts["fragment"]],
        [catalogue.Class(x["name"], x["tm"], list(reads(x).items()), list(writes(x))) for x in parts.get("class", [])])
    for broken in catalogue.faults(made):
        raise BadInput("%s: %s" % (broken.place, broken.rule))
    return made


def read_draft(catalogue_path, workload_path):
    demand_read(catalogue_path, workload_path)
    return Draft(tomllib.loads(text_of(catalogue_path).removeprefix("\ufeff")), Script(workload_path), {})


def writes(cls):
    return cls.get("writes", [])


def reads(cls):
    """Fragment -> the data module at which the class reads it."""
    return {x["fragment"]: x["at"] for x in cls.get("reads", [])}


def set_reads(cls, at):
    cls["reads"] = [{"fragment": f, "at": d} for f, d in at.items()]


def nearest(distances, tm, stores):
    """Of these data modules the one that is nearest to a transaction module."""
    return min(stores, key=lambda d: (distances.between("T%d" % tm, "D%d" % d), d))


def fit(draft, cls, names, distances):
    """Lets a class read and write what these transactions do, each fragment at its nearest copy or where it was read."""
    touched, before = [draft.footprints()[x] for x in names], reads(cls)
    order = [x["name"] for x in draft.parts["fragment"]]
    reading, writing = ({f for pair in touched for f in pair[k]} for k in (0, 1))
    copies = {x["name"]: x["copies"] for x in draft.parts["fragment"]}
    set_reads(cls, {f: before[f] if before.get(f) in copies[f] else nearest(distances, cls["tm"], copies[f]) for f in order if f in reading})
    cls["writes"] = [f for f in order if f in writing]


def listed(names, most=4):
    names = list(names)
    if len(names) > most:
        return ", ".join(names[:most - 1]) + " and %d more" % (len(names) - most + 1)
    return names[0] if len(names) == 1 else ", ".join(names[:-1]) + " and " + names[-1]
