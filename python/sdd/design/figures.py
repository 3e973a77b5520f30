"""The tables of sdd explore: what many runs tell of each class or kind of transaction.

    figures, pairs = collect_figures(observed, "class", 18)
"""
import json
import re

COLUMNS = ["attempts", "attempts/commit", "waits/attempt", "waited: median", "worst", "queued: median", "to commit: median", "worst", "rows", "values"]
ALL = "all"


class Figures:
    """What is known of the transactions of a group."""

    def __init__(self):
        self.attempts = self.commits = self.waits = self.values = self.rows = 0
        self.waited, self.queued, self.latencies, self.kinds = [], [], [], set()

    def take(self, reported, unit):
        self.attempts += reported.attempts
        self.waits += len(reported.waits)
        self.waited += [x.events / unit for x in reported.waits if x.events is not None]
        if reported.committed is not None:
            self.commits += 1
            self.values += reported.values
            self.rows += reported.rows
            self.latencies.append(reported.latency() / unit)
            self.queued.append((reported.started - reported.submitted) / unit)

    def cells(self):
        per = lambda x, of, form: form % (x / of) if of else "-"  # noqa: E731
        return [str(self.attempts), per(self.attempts, self.commits, "%.2f"), per(self.waits, self.attempts, "%.2f"),
                format_time(median(self.waited)), format_time(max(self.waited, default=None)),
                format_time(median(self.queued)), format_time(median(self.latencies)), format_time(max(self.latencies, default=None)),
                per(self.rows, self.commits, "%.1f"), per(self.values, self.commits, "%.1f")]


    def numbers(self):
        """The same as numbers, for JSON; null where there is none."""
        per = lambda x, of: round(x / of, 3) if of else None  # noqa: E731
        both = lambda times: {"median": rounded(median(times)), "worst": rounded(max(times, default=None))}  # noqa: E731
        return {"attempts": self.attempts, "commits": self.commits, "attempts_per_commit": per(self.attempts, self.commits),
                "waits_per_attempt": per(self.waits, self.attempts), "waited": both(self.waited), "queued": both(self.queued),
                "to_commit": both(self.latencies), "rows": per(self.rows, self.commits), "values": per(self.values, self.commits)}


def rounded(number):
    return None if number is None else round(number, 3)


def as_json(designs, by, unit):
    made = []
    for x in designs:
        pairs = [{"who": a, "whom": b, "reads": len(times), "median": rounded(median([t for t in times if t is not None]))}
                 for (a, b), times in x.pairs.items()]
        counts = {p: sum(y == p for y in x.protocols.values()) for p in ("P1", "P2", "P3")}
        made.append({"catalogue": x.name, "schedules": x.runs, "all_schedules": x.complete, "transactions": x.transactions, "links": x.links,
                     "packets_per_commit": rounded(x.packets), "protocols": counts, by: {name: g.numbers() for name, g in x.figures.items()},
                     "pairs": pairs, "drains": {"count": len(x.drains), "median": rounded(median(x.drains))},
                     "pending": [y._asdict() for y in x.pending]})
    return json.dumps({"unit": unit, "designs": made}, indent=1)


def median(values):
    values = sorted(values)
    return values[len(values) // 2] if values else None


def format_time(number):
    return "-" if number is None else "%.1f" % number


def kind_of(name):
    return re.sub(r"_?\d+$", "", name) or name


def group_of(name, reported, by):
    return reported.cls or "?" if by == "class" else kind_of(name)


def collect_drains(observed, unit):
    """How long each transaction of no class took; meanwhile the others are held back."""
    times = [x.latency() for run in observed for x in run.transactions.values() if x.cls == "-"]
    return [x / unit for x in times if x is not None]


def collect_figures(observed, by, unit):
    """The figures of each group and of all, and how long which group waited for which class."""
    figures, pairs, whole = {}, {}, Figures()
    for name, reported in (x for run in observed for x in run.transactions.items()):
        group = group_of(name, reported, by)
        figures.setdefault(group, Figures()).take(reported, unit)
        figures[group].kinds.add(kind_of(name) if by == "class" else reported.cls or "?")
        whole.take(reported, unit)
        for wait, awaited in ((x, y) for x in reported.waits for y in x.awaited):
            pairs.setdefault((group, awaited), []).append(None if wait.events is None else wait.events / unit)
    figures = dict(sorted(figures.items(), key=lambda x: -x[1].waits / max(1, x[1].attempts)))
    figures[ALL] = whole
    return figures, pairs


def print_table(rows):
    """The first column to the left, the others to the right."""
    widths = [max(len(row[k]) for row in rows) for k in range(len(rows[0]))]
    for row in rows:
        cells = [x.ljust(w) if k == 0 else x.rjust(w) for k, (x, w) in enumerate(zip(row, widths))]
        print("  ".join(cells).rstrip())


def describe(design, unit):
    how = "all %d schedules" % design.runs if design.complete else "%d schedules" % design.runs
    round_ = "" if unit == "events" else "; a round is %d events" % design.links
    return "%s: %s of %d transactions, %d links%s; %.1f packets for each commit" % (
        design.name, how, design.transactions, design.links, round_, design.packets)


def join_names(names, most=4):
    names = sorted(names)
    return ", ".join(names[:most]) + (" .." if len(names) > most else "")


def print_design(design, by, unit):
    print(describe(design, unit))
    print()
    other = "kinds" if by == "class" else "classes"
    rows = [[by] + COLUMNS + [other]]
    for group, x in design.figures.items():
        rows.append([group] + x.cells() + [join_names(x.kinds) if group != ALL else ""])
    print_table(rows)
    print_pairs(design, by, unit)
    print_drains([design], unit)


def print_pairs(design, by, unit):
    if not design.pairs:
        print("\nNo read waits.")
        return
    rows = [["who waits for whom", "reads that wait", "%s: median" % unit, "worst"]]
    for (group, awaited), times in sorted(design.pairs.items(), key=lambda x: -len(x[1]))[:24]:
        known = [x for x in times if x is not None]
        rows.append(["%s for %s" % (group, awaited), str(len(times)), format_time(median(known)), format_time(max(known, default=None))])
    print()
    print_table(rows)


def print_drains(designs, unit):
    """How often the system is drained for a transaction of no class."""
    for design in designs:
        if design.drains:
            print("\n%s: %.1f transactions of no class a run; the system is drained for each: %s %s from its submission to its commit (worst %s)" % (
                design.name, len(design.drains) / design.runs, format_time(median(design.drains)), unit, format_time(max(design.drains))))


def print_comparison(designs, by, unit):
    for k, design in enumerate(designs, 1):
        print("%d  %s" % (k, describe(design, unit)))
    print()
    heads = COLUMNS[1:9]
    rows = [[by] + heads]
    names = [x for x in designs[0].figures if x != ALL]
    names += [x for x in designs[1].figures if x not in names]
    names = [x for x in names if x != ALL] + [ALL]
    for name in names:
        both = [x.figures[name].cells() if name in x.figures else ["-"] * len(COLUMNS) for x in designs]
        rows.append([name] + ["%s -> %s" % (a, b) if a != b else a for a, b in list(zip(*both))[1:9]])
    print_table(rows)
    print_drains(designs, unit)
