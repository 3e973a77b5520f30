"""The report on a run: what happened, the order and the replies, what is pending, and the copies.

Definition: docs/FORMATS.md, "The report"; crates/sdd_report/specs, crates/sdd_run/specs/Reports.antt, Pending.antt.
"""
from sdd.model.workload import Site
from sdd.reference.order import serial_order
from sdd.reference.plain import reply_lines, row_line


def trace_line(world, r):
    """The line of a record."""
    name = world.work.txns[r.txn - 1].name if r.txn else ""
    attempt, at = "%s#%d" % (name, r.attempt), "D%d" % r.dm
    cls = world.cat.class_name
    words = {
        "submit": [name],
        "start": [attempt, cls(r.cls), r.time, "-" if r.p2 is None else r.p2],
        "arrive": [attempt, at],
        "wait": [attempt, at] + [x for c in r.conds for x in (cls(c.cls), c.time)],
        "answer": [attempt, at],
        "reject": [attempt, at, cls(r.cls), r.time],
        "commit": [attempt],
        "apply": [name, at],
        "pass": [cls(r.cls), at, r.time],
        "nothing": [],
    }[r.kind]
    return " ".join(map(str, [r.event, r.kind] + words))


def why_pending(world, n):
    """What a transaction that isn't committed waits for."""
    kind, cls, *rest = world.sites[world.homes[n]].standing(n)
    if kind == "queued":
        return "queued %s %d" % (world.cat.class_name(cls), rest[0])
    time, lowest = rest
    for dm in range(1, world.cat.dms + 1) if time is not None else ():
        cond = world.sites[Site("D", dm)].wait_of(cls, time)
        if cond:
            return "waits D%d %s %d" % (dm, world.cat.class_name(cond.cls), cond.time)
    return "underway " + str(lowest)


def copy_lines(world):
    for dm in range(1, world.cat.dms + 1):
        for fragment, copy in world.sites[Site("D", dm)].copies.items():
            yield "copy D%d %s %d" % (dm, fragment, len(copy.rows()))
            for _, row in copy.rows():
                yield row_line(row)


def report_text(world):
    names = [txn.name for txn in world.work.txns]
    commits = {r.txn: r for r in world.records if r.kind == "commit"}
    order = serial_order(world.cat, world.records)
    lines = [trace_line(world, r) for r in world.records]
    lines.append(" ".join(["order"] + [names[n - 1] for n in order]))
    for n in order:
        lines += reply_lines(names[n - 1], commits[n].reply)
    lines += ["shipped %s %d %d" % (names[n - 1], commits[n].values, commits[n].rows) for n in order]
    for r in world.records:
        if r.kind == "submit" and r.txn not in commits:
            lines.append("pending %s %s" % (names[r.txn - 1], why_pending(world, r.txn)))
    return "".join(line + "\n" for line in lines + list(copy_lines(world)) + ["end"])
