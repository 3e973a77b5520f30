"""The faults that sdd plant-faults plants in a report: functions of its lines, which give other lines.

Each takes the lines, the report as it is read, its run (of sdd to-elle) and a generator of drawn numbers, and
gives None where the report has no place for such a fault.
"""
from sdd.judge.effect import effect
from sdd.model.words import value_word

FIRST_ROWS = 0


def reply_blocks(lines):
    """Of each reply the line at which it begins, and that after its last one."""
    begins = [k for k, x in enumerate(lines) if x.startswith("reply ")]
    return {lines[k].split(" ")[1]: (k, next(n for n in range(k + 1, len(lines)) if not lines[n].startswith(("query ", "row "))))
            for k in begins}


def copy_blocks(lines):
    """The line of each copy, and those of its rows."""
    begins = [k for k, x in enumerate(lines) if x.startswith("copy ")]
    return {k: [n for n in range(k + 1, k + 1 + int(lines[k].split(" ")[3]))] for k in begins}


def reply_rows(lines):
    return [k for a, b in reply_blocks(lines).values() for k in range(a, b) if lines[k].startswith("row ")]


def with_count(lines, place, change):
    """The lines with another count of rows at the `query` or `copy` line that stands last before a place."""
    at = max(k for k in range(place) if lines[k].startswith(("query ", "copy ")))
    words = lines[at].split(" ")
    words[-1] = str(int(words[-1]) + change)
    return lines[:at] + [" ".join(words)] + lines[at + 1:]


def with_other_value(line, rng):
    """A row in which one value is another; its first one only where there is no other."""
    words = line.split(" ")
    at = rng.randrange(min(2, len(words) - 1), len(words))
    words[at] = words[at][:-1] + 'x"' if words[at].startswith('"') else str(int(words[at]) + rng.choice([-1, 1, 7]))
    return " ".join(words)


def exchange_replies(lines, report, _, rng):
    """Two transactions that ask for as much get each other's answers."""
    blocks = reply_blocks(lines)
    pairs = [(a, b) for a in blocks for b in blocks if a < b and report.replies[a] != report.replies[b]
             and len(report.replies[a].queries) == len(report.replies[b].queries) > 0]
    if not pairs:
        return None
    (a, b), (c, d) = sorted(blocks[x] for x in rng.choice(pairs))
    return lines[:a + 1] + lines[c + 1:d] + lines[b:c + 1] + lines[a + 1:b] + lines[d:]


def change_reply_value(lines, _, __, rng):
    places = reply_rows(lines)
    if not places:
        return None
    at = rng.choice(places)
    return lines[:at] + [with_other_value(lines[at], rng)] + lines[at + 1:]


def drop_reply_row(lines, _, __, rng):
    places = reply_rows(lines)
    if not places:
        return None
    at = rng.choice(places)
    made = with_count(lines, at, -1)
    return made[:at] + made[at + 1:]


def add_reply_row(lines, _, __, rng):
    places = reply_rows(lines)
    if not places:
        return None
    at = rng.choice(places)
    made = with_count(lines, at, 1)
    return made[:at + 1] + [with_other_value(made[at], rng)] + made[at + 1:]


def answer_from_first_rows(lines, report, run, rng):
    """A transaction is answered as by the first rows of the workload."""
    blocks, found = reply_blocks(lines), []
    for name in blocks:
        reply, _ = effect(run.transaction(name), run.first, run.catalogue)
        if reply != report.replies[name] and reply.kind == "ok":
            found.append((name, reply))
    if not found:
        return None
    name, reply = rng.choice(found)
    shown = ["reply %s ok" % name]
    for k, rows in enumerate(reply.queries, 1):
        shown.append("query %d %d" % (k, len(rows)))
        shown += ["row " + " ".join(map(value_word, row)) for row in rows]
    a, b = blocks[name]
    return lines[:a] + shown + lines[b:]


def change_outcome(lines, _, __, rng):
    """A transaction that did what it should is answered that a sum left the range of numbers."""
    blocks = [(a, b) for a, b in reply_blocks(lines).values() if lines[a].endswith(" ok")]
    if not blocks:
        return None
    a, b = rng.choice(blocks)
    return lines[:a] + [lines[a][:-2] + "overflow"] + lines[b:]


def change_copy_value(lines, _, __, rng):
    places = [k for rows in copy_blocks(lines).values() for k in rows]
    if not places:
        return None
    at = rng.choice(places)
    return lines[:at] + [with_other_value(lines[at], rng)] + lines[at + 1:]


def drop_copy_row(lines, _, __, rng):
    places = [k for rows in copy_blocks(lines).values() for k in rows]
    if not places:
        return None
    at = rng.choice(places)
    made = with_count(lines, at, -1)
    return made[:at] + made[at + 1:]


def list_older_rows(lines, run):
    """Of each row of a copy that a transaction changed: its place, its item, and the line of the version before."""
    for k, rows in copy_blocks(lines).items():
        _, site, name, _ = lines[k].split(" ")
        fragment = run.catalogue.fragment[name]
        key = run.catalogue.relation[fragment.relation].key_place
        applied = {n for _, n in run.applied.get(site, [])} | {FIRST_ROWS}
        for at in rows:
            item = next(x for x in run.versions if fragment.has(*x) and str(x[1]) == lines[at].split(" ")[key + 1])
            shown = [x for x in run.versions[item] if x.writer in applied]
            if len(shown) > 1 and shown[-2].row is not None and shown[-2].row != shown[-1].row:
                yield at, item, "row " + " ".join(map(value_word, shown[-2].row))


def lose_change_at_one(lines, _, run, rng):
    """One copy lost the last change of a row."""
    found = list(list_older_rows(lines, run))
    if not found:
        return None
    at, _, before = rng.choice(found)
    return lines[:at] + [before] + lines[at + 1:]


def lose_change_at_all(lines, _, run, rng):
    """All copies lost the last change of a row."""
    found = list(list_older_rows(lines, run))
    if not found:
        return None
    _, lost, _ = rng.choice(found)
    made = list(lines)
    for at, item, before in found:
        if item == lost:
            made[at] = before
    return made


KINDS = {
    "two replies exchanged": exchange_replies,
    "a value of a reply changed": change_reply_value,
    "a row of a reply left out": drop_reply_row,
    "a row of a reply added": add_reply_row,
    "a reply that the first rows would give": answer_from_first_rows,
    "`overflow` reported in place of `ok`": change_outcome,
    "a value of a copy changed": change_copy_value,
    "a row of a copy left out": drop_copy_row,
    "the last change of a row lost at one copy": lose_change_at_one,
    "the last change of a row lost at all copies": lose_change_at_all,
}
