"""Certifies a report, whoever wrote it: whether it is serializable, complete and strict.

Complete is an order that names each transaction whose commit is told before it; strict one in which what is told to be
over before another transaction began stands before it. Definition: docs/FORMATS.md, "What `sdd1_ask` prints";
crates/sdd_certify/specs/Certificate.antt.
"""
from sdd.model.words import MAX_FILE_BYTES
from sdd.reference.verify import judge, order_line_in


def told(verb, line):
    """The transaction of which a line tells this, or None: the third word up to `#`, where the second is the verb."""
    words = line.split(b" ")
    return words[2].split(b"#")[0] if len(words) > 2 and words[1] == verb else None


def places_on(line):
    """The first place of each name on an order line, counted from 1."""
    places = {}
    for place, name in enumerate(line.split(b" ")[1:], 1):
        places.setdefault(name, place)
    return places


def first_missing(lines, places):
    """The first line that tells the commit of a transaction without a place, and its name."""
    for number, line in enumerate(lines, 1):
        name = told(b"commit", line)
        if name is not None and name not in places:
            return number, name
    return None, None


def first_late(lines, places):
    """The first line that submits a transaction which stands before one whose commit is told, and the last of these."""
    names = {place: name for name, place in places.items()}
    last = 0
    for number, line in enumerate(lines, 1):
        if 0 < places.get(told(b"submit", line), 0) < last:
            return number, names[last]
        last = max(last, places.get(told(b"commit", line), 0))
    return None, None


def verdict_lines(promise, word, found):
    """Whether a promise is kept; where it isn't, the line at fault, and what the word says of it."""
    number, text = found
    if number is None:
        return b"%s yes\n" % promise
    return b"%s no %d\n" % (promise, number) + (b"" if text is None else b"%s %s\n" % (word, text))


def certificate_text(cat, work, report):
    """The three lines, and behind each `no` what is expected, missing or late."""
    lines, at = order_line_in(report)
    verdict = judge(cat, work, report)
    missing = late = verdict
    if len(report) <= MAX_FILE_BYTES and at is not None:
        places = places_on(lines[at])
        missing, late = first_missing(lines[:at], places), first_late(lines[:at], places)
    text = (verdict_lines(b"serializable", b"expected", verdict) + verdict_lines(b"complete", b"missing", missing)
            + verdict_lines(b"strict", b"late", late))
    return text.decode("utf-8", "surrogateescape")
