"""What sdd shrink can leave out of a workload and a catalogue.

A cut of a workload is a list of the places of its lines that go together, or a line with another text;
a cut of a catalogue is its parts, as TOML gives them, without one of them.
"""
import copy
import re

from sdd.model.files import BadInput
from sdd.model.toml import NotToml, read_toml

EVENTS = {"submit", "deliver", "lose", "repeat", "resend", "tick", "down", "up", "settle", "redeclare"}


def blocks(lines, kinds):
    """The first and the last line of each transaction or list."""
    begin = None
    for k, line in enumerate(lines):
        word = line.split(" ")[0]
        if begin is None and word in ("txn", "list"):
            begin = k
        elif begin is not None and line == "done":
            if lines[begin].split(" ")[0] in kinds:
                yield begin, k
            begin = None


def outside(lines):
    """The places of lines that stand in no transaction and no list."""
    inside = {k for a, b in blocks(lines, ("txn", "list")) for k in range(a, b + 1)}
    return [k for k in range(len(lines)) if k not in inside]


def event_cuts(lines):
    return [{k: None} for k in outside(lines) if lines[k].split(" ")[0] in EVENTS]


def transaction_cuts(lines):
    """A transaction goes with the line that submits it."""
    made = []
    for a, b in blocks(lines, ("txn",)):
        submit = "submit " + lines[a].split(" ")[1]
        gone = list(range(a, b + 1)) + [k for k in outside(lines) if lines[k] == submit]
        made.append(dict.fromkeys(gone))
    return made


def row_cuts(lines):
    return [{k: None} for k in outside(lines) if lines[k].startswith("row ")]


def list_cuts(lines):
    return [dict.fromkeys(range(a, b + 1)) for a, b in blocks(lines, ("list",))]


def statement_cuts(lines):
    """Also the lines of a class in a list."""
    return [{k: None} for a, b in blocks(lines, ("txn", "list")) for k in range(a + 1, b)]


def condition_cuts(lines):
    """A line without its last condition."""
    made = []
    for a, b in blocks(lines, ("txn",)):
        for k in range(a + 1, b):
            found = re.fullmatch(r"(.*) (?:where|and) \S+ \S+ (?:\"(?:[^\"\\]|\\.)*\"|\S+)", lines[k])
            if found:
                made.append({k: found[1]})
    return made


def workload_cuts():
    """The kinds of cuts, in the order in which they are tried."""
    return [event_cuts, transaction_cuts, row_cuts, list_cuts, statement_cuts, condition_cuts]


def lines_without(lines, cuts):
    """The lines with these cuts: a line goes, or gets another text."""
    changed = {k: text for cut in cuts for k, text in cut.items()}
    return [changed.get(k, line) for k, line in enumerate(lines) if changed.get(k, line) is not None]


def parts_of_catalogue(name, text):
    try:
        return read_toml(text.encode())
    except NotToml as fault:
        raise BadInput("%s: not TOML: %s" % (name, fault)) from None


def without(parts, *path):
    """The parts without the one to which the path leads."""
    made = copy.deepcopy(parts)
    place = made
    for step in path[:-1]:
        place = place[step]
    del place[path[-1]]
    return made


def catalogue_cuts(parts):
    """The catalogue without a class, a read, a written fragment, a copy, a relation or its last module."""
    try:
        classes, relations, fragments = (list(enumerate(parts.get(x, []))) for x in ("class", "relation", "fragment"))
        yield from (without(parts, "class", k) for k, _ in classes)
        yield from (without(parts, "class", k, field, n) for k, x in classes for field in ("reads", "writes") for n in range(len(x.get(field, []))))
        for k, x in relations:
            made = without(parts, "relation", k)
            made["fragment"] = [f for f in made.get("fragment", []) if f["relation"] != x["name"]]
            yield made
        yield from (without(parts, "fragment", k, "copies", n) for k, x in fragments for n in range(len(x["copies"])))
        yield from (dict(parts, **{field: parts[field] - 1}) for field in ("tms", "dms") if parts[field] > 1)
    except (KeyError, TypeError, AttributeError):
        return


def format_value(x):
    """A value of TOML as it is written here."""
    if isinstance(x, dict):
        return "{%s}" % ", ".join("%s = %s" % (k, format_value(v)) for k, v in x.items())
    if isinstance(x, list):
        return "[%s]" % ", ".join(map(format_value, x))
    return '"%s"' % x if isinstance(x, str) else str(x)


def format_catalogue(parts):
    lines = ["%s = %s" % (k, format_value(v)) for k, v in parts.items() if not is_tables(v)]
    for name, tables in parts.items():
        for table in tables if is_tables(tables) else []:
            lines += ["", "[[%s]]" % name] + ["%s = %s" % (k, format_value(v)) for k, v in table.items() if v != []]
    return "\n".join(lines) + "\n"


def is_tables(x):
    return isinstance(x, list) and all(isinstance(y, dict) for y in x) and x != []
