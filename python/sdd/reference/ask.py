"""Questions that a catalogue answers: whether snapshot isolation is enough, and which modules its classes need.

Both go by the protocol table. What a class needs is found by its rules, taken again and again until nothing more
comes. Definition: docs/FORMATS.md, "What `sdd1_ask` prints"; crates/sdd_ask/specs/Robust.antt, Needs.antt.
"""
from sdd.reference.graph import protocol_table


def robust_text(cat):
    """Snapshot isolation is enough where no read has P3; else the first one that has."""
    thirds = [entry.edge for entry in protocol_table(cat) if entry.edge.kind == "diagonal" and entry.protocol == "P3"]
    if not thirds:
        return "snapshot isolation: enough\n"
    edge = thirds[0]
    return "snapshot isolation: not shown\n%s reads %s, which %s writes\n" % (
        cat.class_name(edge.i), edge.fragment, cat.class_name(edge.j))


def needs_of(cat):
    """The modules that an attempt of each class needs, and those that its passing needs, by its number."""
    waits = {(entry.edge.i, entry.edge.j) for entry in protocol_table(cat)
             if entry.edge.kind == "diagonal" and entry.protocol != "P1"}
    attempt = {c: {("T", one.tm)} | {("D", dm) for _, dm in one.reads} for c, one in enumerate(cat.classes, 1)}
    passing = {c: set() for c in attempt}
    at = {c: {dm for _, dm in one.reads} for c, one in enumerate(cat.classes, 1)}
    # a READ that waits for j and for m holds a WRITE of j until m has passed; where j reads too, its READ queues behind that
    held = [(reader, j, m) for reader, j in waits for other, m in waits if other == reader]
    queues = {(j, m) for reader, j, m in held if at[reader] & at[j]}
    count = -1
    while count != (count := sum(len(found) for needs in (attempt, passing) for found in needs.values())):
        for c, j in waits | queues:
            attempt[c] |= passing[j]
        for j in passing:
            passing[j] |= attempt[j]
        for _, j, m in held:
            passing[j] |= passing[m]
    return attempt, passing


def needs_text(cat):
    """Two lines for each class: what its attempts need, and what its passing needs."""
    def words(needed):
        return "".join(" %s%d" % site for site in sorted(needed, key=lambda site: (site[0] == "D", site[1])))
    attempt, passing = needs_of(cat)
    return "".join("%s attempt%s\n%s passing%s\n" % (one.name, words(attempt[c]), one.name, words(passing[c]))
                   for c, one in enumerate(cat.classes, 1))


OF_CATALOGUE = {"robust": robust_text, "needs": needs_text}
