"""Writes the committed transactions of a run as a history for a checker of isolation levels.

    sdd to-elle REPORT WORKLOAD CATALOGUE [--along-order] [--into FILE]

The history is in the list-append form of Elle, as EDN, one operation a line. An item is a row of a
relation by its key, "account/1"; its versions are a list, to which each transaction that changes the
row appends its number (that of its `txn` line; 0 is the row that stands in the workload). A process is a
class, the first one the workload's rows; each class reads all copies at the end.

- What a transaction read: of each row that its conditions on keys leave to it, the versions that were
  applied at the module where it reads the row before it was answered there, as the report's records tell.
- What it replied: the transaction is run again on these versions, by sdd/judge/effect.py. Where that
  isn't the reply of the report, the history has further reads, of versions that give that reply; or
  of version -1, which nobody appends, where none do. So a wrong reply leaves its trace in the history.
- What is in the copies: a read of each copy at which every change of its fragment is applied. Where a row
  isn't the one that was applied there last, also where some change isn't applied yet, the history has two
  reads of it: of what was applied there, and of the versions that end with this row (-1 where none does).

sdd check-history judges the history. Nothing in it tells of timestamps, but that the versions of
a row that was read stand in the order in which a copy lets one replace the other. Nor does it tell the
serial order of the report; with --along-order all transactions are of one process, in that order, so that
the order is judged too.
"""
import json
import sys
from typing import NamedTuple

from sdd.command import parser
from sdd.judge.effect import effect, first_database, read_set, reads
from sdd.model.files import BadInput, write_text
from sdd.model.reading import catalogue_at, workload_at
from sdd.model.report import read_report

FIRST_ROWS, NOBODY = 0, -1


class Version(NamedTuple):
    time: int               # the timestamp of its transaction, -1 of a row of the workload
    writer: int             # the transaction's number
    row: tuple              # None where the row is deleted


class Committed(NamedTuple):
    number: int
    name: str
    process: str            # its class
    begin: int              # the place of its first start among the records
    end: int                # that of its commit
    time: int
    seen: dict              # fragment -> the numbers of transactions whose changes are seen there
    reads: tuple            # its reads, by the records: pairs of an item and versions
    reported: tuple             # its further reads, by the reply
    changes: dict


class Run:
    """The committed transactions of a report, run again on what they saw."""

    def __init__(self, report, work, catalogue):
        self.report, self.work, self.catalogue, self.numbers = report, work, work.all_classes(catalogue), work.numbers()
        self.first = first_database(work, catalogue)
        self.versions = {(r, k): [Version(-1, FIRST_ROWS, row)] for r, rows in self.first.items() for k, row in rows.items()}
        self.starts, self.commits = report.attempts(), report.commits()
        self.applied = {}       # module -> places of applies and the transactions' numbers
        self.answered = {}      # transaction, attempt, module -> place
        for x in report.records:
            if x.kind == "apply":
                self.applied.setdefault(x.site, []).append((x.place, self.number(x.txn)))
            elif x.kind == "answer":
                self.answered[x.txn, x.attempt, x.site] = x.place
        self.committed = {}
        seen = {x: self.seen_by(x) for x in self.commits.values()}
        work = {x: self.changes(x, seen[x]) for x in sorted(self.commits.values())}
        self.databases = [(x, seen[x]) for x in self.commits.values()]
        for commit, changes in work.items():
            self.add(commit, seen[commit], changes)

    def number(self, name):
        if name not in self.numbers:
            raise BadInput("the report has %s, which the workload hasn't" % name)
        return self.numbers[name]

    def transaction(self, name):
        return self.work.txns[self.number(name) - 1]

    def class_of(self, commit):
        return self.starts[commit.txn, commit.attempt].cls

    def module_of(self, cls, fragment):
        """Where a class reads a fragment."""
        module = self.catalogue.read_at(self.catalogue.number[cls], fragment) if cls in self.catalogue.number else None
        if module is None:
            raise BadInput("no class %s reads %s: is this the catalogue of the run?" % (cls, fragment))
        return "D%d" % module

    def seen_by(self, commit):
        """For each fragment that the attempt reads, whose changes are seen there."""
        seen = {}
        for fragment in read_set(self.transaction(commit.txn), self.catalogue):
            module = self.module_of(self.class_of(commit), fragment)
            answered = self.answered.get((commit.txn, commit.attempt, module))
            if answered is None:
                raise BadInput("%s#%d has no answer at %s" % (commit.txn, commit.attempt, module))
            seen[fragment] = {n for place, n in self.applied.get(module, []) if place < answered}
        return seen

    def changes(self, commit, seen):
        """What the attempt changed; each change becomes a version of its item."""
        transaction = self.transaction(commit.txn)
        _, changes = effect(transaction, self.database(transaction, seen), self.catalogue)
        time = self.starts[commit.txn, commit.attempt].time
        for item, row in changes.items():
            self.versions.setdefault(item, []).append(Version(time, self.number(commit.txn), row))
            self.versions[item].sort(key=lambda x: x.time)
        return changes

    def visible(self, item, seen):
        """The versions of an item that are seen, in their order."""
        numbers = seen[self.catalogue.fragment_of(*item)]
        return [x for x in self.versions[item] if x.writer == FIRST_ROWS or x.writer in numbers]

    def items(self, transaction):
        """The items that its conditions on keys leave to the transaction."""
        ranges = list(reads(transaction, self.catalogue))
        return [x for x in self.versions if any(x[0] == r and low <= x[1] <= high for r, low, high in ranges)]

    def database(self, transaction, seen):
        made = {name: {} for name in self.catalogue.relation}
        for item in sorted(self.items(transaction)):
            shown = self.visible(item, seen)
            if shown and shown[-1].row is not None:
                made[item[0]][item[1]] = shown[-1].row
        return made

    def listed(self, transaction, seen):
        return tuple((item, tuple(x.writer for x in self.visible(item, seen))) for item in self.items(transaction))

    def replies(self, transaction, seen):
        return effect(transaction, self.database(transaction, seen), self.catalogue)[0]

    def add(self, commit, seen, changes):
        transaction = self.transaction(commit.txn)
        reply = self.report.replies[commit.txn]
        reported = ()
        if self.replies(transaction, seen) != reply:
            reported = self.explained(transaction, seen, reply)
        begin = self.starts[commit.txn, 1].place
        time = self.starts[commit.txn, commit.attempt].time
        self.committed[commit.txn] = Committed(
            self.number(commit.txn), commit.txn, self.class_of(commit), begin, commit.place, time, seen,
            self.listed(transaction, seen), reported, changes)

    def explained(self, transaction, seen, reply):
        """Reads that give this reply: of what another transaction saw, of the first rows, or of all."""
        everything = set(self.numbers.values())
        others = [other for _, other in self.databases]
        for other in others + [{f: set() for f in seen}, {f: everything for f in seen}]:
            cut = {f: other.get(f, seen[f]) for f in seen}
            if cut != seen and self.replies(transaction, cut) == reply:
                return self.listed(transaction, cut)
        items = self.items(transaction) or [("reply", transaction.name)]
        return ((items[0], (NOBODY,)),)

    def final_reads(self):
        """The reads of each copy: all of them where all changes are applied, else those of wrong rows."""
        for f in self.catalogue.fragments:
            for site in ("D%d" % x for x in sorted(f.copies)):
                if (site, f.name) not in self.report.copies:
                    raise BadInput("the report has no copy %s %s" % (site, f.name))
                yield from self.copy_reads(site, f, self.report.copies[site, f.name])

    def copy_reads(self, site, fragment, rows):
        key = self.catalogue.relation[fragment.relation].key_place
        reported = {}
        for row in rows:
            reported.setdefault((fragment.relation, row[key]), []).append(row)
        items = [x for x in self.versions if fragment.has(*x)]
        items += [x for x in reported if not fragment.has(*x) or x not in self.versions]
        applied = {n for _, n in self.applied.get(site, [])} | {FIRST_ROWS}
        complete = all(v.writer in applied for x in items for v in self.versions.get(x, []))
        made = []
        for item in items:
            shown = [x for x in self.versions.get(item, []) if x.writer in applied]
            right = [shown[-1].row] if shown and shown[-1].row is not None else []
            if not fragment.has(*item) or reported.get(item, []) != right:
                made += self.wrong_row(item, shown, reported.get(item, []))
            elif complete:
                made.append((item, writers_of(shown)))
        return made

    def wrong_row(self, item, shown, rows):
        """Two reads of which one is of what was applied at a copy, the other of what the copy has."""
        first = shown == self.versions.get(item, [])[:len(shown)]
        made = [(item, writers_of(shown))] if first else []
        for k in range(len(shown) - 1, -1, -1):
            before = [shown[k - 1].row] if k and shown[k - 1].row is not None else []
            if first and before == rows:
                return made + [(item, writers_of(shown[:k]))]
        return made + [(item, (NOBODY,))]


def writers_of(versions):
    return tuple(x.writer for x in versions)


def micro(kind, item, value):
    shown = "nil" if value is None else "[%s]" % " ".join(map(str, value)) if isinstance(value, tuple) else str(value)
    return "[:%s %s %s]" % (kind, json.dumps("%s/%s" % item, ensure_ascii=False), shown)


def operation(index, kind, process, name, steps):
    return "{:index %d, :type :%s, :process %d, :f :txn, :name %s, :value [%s]}" % (
        index, kind, process, json.dumps(name), " ".join(steps))


def history(run, along_order=False):
    """The lines of the history: an invoke where a transaction first starts, an ok where it commits."""
    first = [micro("append", item, FIRST_ROWS) for item, v in run.versions.items() if v[0].writer == FIRST_ROWS]
    events = [(-2, "invoke", "rows", first, "rows"), (-1, "ok", "rows", first, "rows")]
    for x in run.committed.values():
        place = run.report.order.index(x.name)
        begin, end, process = (place, place, "order") if along_order else (x.begin, x.end, x.process)
        appends = [micro("append", item, x.number) for item in x.changes]
        both = x.reads + x.reported
        events.append((begin, "invoke", process, [micro("r", item, None) for item, _ in both] + appends, x.name))
        events.append((end, "ok", process, [micro("r", *read) for read in both] + appends, x.name))
    last = len(run.report.records)
    final = list(run.final_reads())
    for process in list(dict.fromkeys(x[2] for x in events[2:])) or ["copies"]:
        events.append((last, "invoke", process, [micro("r", item, None) for item, _ in final], "copies"))
        events.append((last, "ok", process, [micro("r", *read) for read in final], "copies"))
    events.sort(key=lambda x: x[0])
    processes = {}
    for _, _, process, _, _ in events:
        processes.setdefault(process, len(processes))
    return [operation(k, kind, processes[process], name, steps) for k, (_, kind, process, steps, name) in enumerate(events)]


def main():
    asked = parser(__doc__)
    for name in ("report", "workload", "catalogue"):
        asked.add_argument(name, metavar=name.upper())
    asked.add_argument("--along-order", action="store_true", help="judge the order of the report too")
    asked.add_argument("--into", metavar="FILE", help="the history's file; without it standard output")
    asked = asked.parse_args()
    catalogue = catalogue_at(asked.catalogue)
    run = Run(read_report(asked.report), workload_at(asked.workload, catalogue), catalogue)
    text = "".join(x + "\n" for x in history(run, asked.along_order))
    if asked.into is None:
        sys.stdout.write(text)
    else:
        write_text(asked.into, text)
