"""The tables of timed runs: one design, two side by side, or many in a line each; JSON and CSV.

    print_times(explored, distances)            # a list of Explored
"""
import csv
import json
import sys

from sdd.design.latencies import ALL, PARTS, kind_of, percentile

FIELDS = (("waited", "waited"), ("queued", "queued"), ("to commit", "to_commit"))
MOST_PAIRS = 24


def shown(ms):
    if ms is None:
        return "-"
    return "%.0f" % ms if ms >= 1000 else "%.1f" % ms


def per(x, of, form="%.2f"):
    return form % (x / of) if of else "-"


def print_table(rows, left=1):
    """Columns with two spaces between; the first ones to the left, the others to the right."""
    widths = [max(len(row[k]) for row in rows) for k in range(len(rows[0]))]
    for row in rows:
        print("  ".join(x.ljust(w) if k < left else x.rjust(w) for k, (x, w) in enumerate(zip(row, widths))).rstrip())


def heads():
    return [x for title, _ in FIELDS for x in ("%s: p%d" % (title, PARTS[0]),) + tuple("p%d" % p for p in PARTS[1:])]


def cells(group):
    return [shown(group.part(field, p)) for _, field in FIELDS for p in PARTS]


def describe(design):
    p = design.protocols
    return "%s: %d runs of %d transactions; P1 %d, P2 %d, P3 %d; %.1f packets for each commit" % (
        design.name, design.latencies.runs, design.transactions, p["P1"], p["P2"], p["P3"], design.packets)


def print_times(designs, distances, program):
    print("milliseconds; %s" % distances.words())
    if len(designs) > 2:
        print()
        print_summary(designs)
    elif len(designs) == 2:
        print_two(designs)
    else:
        print_one(designs[0])
    checked = sum(x.checked for x in designs)
    if checked:
        print("\n%d of the runs were carried out by %s: the same events in the same order, and `verify` says yes of each." % (checked, program))


def print_one(design):
    print(describe(design))
    print()
    found = design.latencies
    rows = [[found.by, "commits", "attempts/commit", "waits/attempt"] + heads() + ["busy", "kinds" if found.by == "class" else "classes"]]
    for name, group in found.ordered().items():
        rows.append([name, str(group.commits), per(group.attempts, group.commits), per(group.waits, group.attempts)] + cells(group) + [
            "" if name == ALL else "%.0f%%" % (100 * group.busy / found.runs), join_names(group.others)])
    print_table(rows)
    print_pairs(found)
    print_notes(design)


def join_names(names, most=4):
    names = sorted(names)
    return ", ".join(names[:most]) + (" .." if len(names) > most else "")


def print_pairs(found):
    if not found.pairs:
        print("\nNo read waits.")
        return
    rows = [["who waits for whom", "reads that wait", "p50", "p95", "p99"]]
    for (who, whom), times in sorted(found.pairs.items(), key=lambda x: -sum(x[1]))[:MOST_PAIRS]:
        rows.append(["%s for %s" % (who, whom), str(len(times))] + [shown(percentile(times, p)) for p in PARTS])
    print()
    print_table(rows)


def print_notes(design):
    """What a reader should know before the figures are believed."""
    found = design.latencies
    if found.drains:
        print("\n%.1f transactions of no class a run; the system is drained for each: p50 %s, p95 %s to its commit" % (
            len(found.drains) / found.runs, shown(percentile(found.drains, 50)), shown(percentile(found.drains, 95))))
    full = [name for name, group in found.groups.items() if found.by == "class" and group.busy / found.runs > 0.9]
    if full:
        print("\n%s %s at work more than 90%% of the time: more comes than goes, and the more transactions there are the longer they queue." % (
            join_names(full), "is" if len(full) == 1 else "are"))
    if found.unended:
        print("\n%d transactions didn't end: a module stays down" % found.unended)


def print_two(designs):
    for k, design in enumerate(designs, 1):
        print("%d  %s" % (k, describe(design)))
    print()
    both = [x.latencies.ordered() for x in designs]
    names = [x for x in both[0] if x != ALL] + [x for x in both[1] if x not in both[0]] + [ALL]
    rows = [[designs[0].latencies.by, "", "waits/attempt"] + heads()]
    for name in names:
        for k, groups in enumerate(both, 1):
            group = groups.get(name)
            rows.append([name if k == 1 else "", str(k)] + ([per(group.waits, group.attempts)] + cells(group) if group else ["-"] * (1 + len(heads()))))
    print_table(rows, left=2)
    for k, design in enumerate(designs, 1):
        if not design.latencies.pairs:
            print("\n%d  No read waits." % k)
        print_notes(design)


def print_summary(designs):
    rows = [["design", "P1, P2, P3", "waits/attempt"] + heads() + ["packets/commit"]]
    for design in designs:
        whole, p = design.latencies.whole(), design.protocols
        rows.append([short(design.name), "%d, %d, %d" % (p["P1"], p["P2"], p["P3"]), per(whole.waits, whole.attempts)] + cells(whole) + ["%.1f" % design.packets])
    print_table(rows)


def kinds_of_designs(designs):
    """The most kinds of transactions that a design has."""
    return max(len({kind_of(design.work.txns[n - 1].name) for n in design.work.submitted()}) for design in designs)


def short(path):
    """The folder of a file named catalogue.toml, else the file."""
    parts = path.replace("\\", "/").split("/")
    return parts[-2] if parts[-1] == "catalogue.toml" and len(parts) > 1 else path


# For other programs.

def numbers(group):
    made = {"commits": group.commits, "attempts": group.attempts, "waits": group.waits}
    return made | {"%s_p%d" % (field, p): rounded(group.part(field, p)) for _, field in FIELDS for p in PARTS} | {"to_commit_mean": rounded(group.mean())}


def rounded(ms):
    return None if ms is None else round(ms, 3)


def as_json(designs, distances):
    made = []
    for x in designs:
        pairs = [{"who": a, "whom": b, "reads": len(ms)} | {"p%d" % p: rounded(percentile(ms, p)) for p in PARTS} for (a, b), ms in x.latencies.pairs.items()]
        made.append({"catalogue": x.name, "runs": x.latencies.runs, "checked": x.checked, "transactions": x.transactions, "protocols": x.protocols,
                     "packets_per_commit": round(x.packets, 3), x.latencies.by: {name: numbers(g) for name, g in x.latencies.ordered().items()}, "pairs": pairs})
    return json.dumps({"unit": "milliseconds", "times": distances.words(), "designs": made}, indent=1)


def write_csv(designs, file=None):
    written = csv.writer(file or sys.stdout, lineterminator="\n")
    first = None
    for x in designs:
        for name, group in x.latencies.ordered().items():
            row = numbers(group)
            if first is None:
                first = list(row)
                written.writerow(["catalogue", x.latencies.by] + first)
            written.writerow([x.name, name] + ["" if row[k] is None else row[k] for k in first])
