"""Judges a report, whoever wrote it, by the replies of one plain database along the order that it tells.

What the report tells otherwise isn't judged. Definition: docs/FORMATS.md, "What `verify` prints";
crates/sdd_verify/specs/Verdict.antt.
"""
from sdd.model.words import MAX_FILE_BYTES
from sdd.reference.plain import reply_lines, serial
from sdd.reference.redeclare import classes_submitted


NO_REPLY = b"no reply"


def order_line_in(report):
    """The lines, and how many stand before the first order line: None where there is none."""
    lines = report.split(b"\n")[:-1]
    return lines, next((k for k, line in enumerate(lines) if line == b"order" or line.startswith(b"order ")), None)


def judge(cat, work, report):
    """The number of the first line at fault and what is due there: a line of a reply, or NO_REPLY; None where a line before the replies is at fault. (None, None) where none is."""
    if len(report) > MAX_FILE_BYTES:
        return 0, None
    lines, at = order_line_in(report)
    if at is None:
        return len(lines) + 1, None
    order = order_on(work, lines[at], classes_submitted(cat, work))
    if order is None:
        return at + 1, None
    txns = [work.txns[n - 1] for n in order]
    wanted = [line for txn, reply in zip(txns, serial(cat, work.rows, txns)[0]) for line in reply_lines(txn.name, reply)]
    behind = lines[at + 1:]
    for k, line in enumerate(wanted):
        if behind[k:k + 1] != [line.encode()]:
            return at + 2 + k, line.encode()
    after = behind[len(wanted):len(wanted) + 1]
    if not after or after[0].startswith((b"reply ", b"query ", b"row ")):
        return at + 2 + len(wanted), NO_REPLY
    return None, None


def verdict(cat, work, report):
    """None, or the number of the first line at fault."""
    return judge(cat, work, report)[0]


def order_on(work, line, classes):
    """The numbers of the transactions on an order line, or None where it names one that may not stand there."""
    submitted = work.submitted()
    number = {work.txns[n - 1].name.encode(): n for n in submitted}
    order = [number.get(name) for name in line.split(b" ")[1:]]
    if None in order or len(set(order)) < len(order):
        return None
    last = {}                   # class -> the place, in the order of submission, of its last transaction so far
    for n in order:
        if last.get(classes[n], -1) > submitted.index(n):
            return None
        last[classes[n]] = submitted.index(n)
    return order


def verdict_text(cat, work, report):
    line = verdict(cat, work, report)
    return "yes\n" if line is None else "no %d\n" % line
