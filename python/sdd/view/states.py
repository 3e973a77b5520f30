"""What happens at each event of a run: the text that `sdd1_inside` prints (docs/INSIDE.md), read and judged.

    programs = find_programs(None, None)
    data = run_data(programs, catalogue, workload, "a name")

`run_data` runs the programs on copies of the two files, and gives all that a page shows of the run. Where
`sdd1_inside` is neither given nor found the text comes from the reference of this repository, and so does
the report where `sdd1` is neither.
"""
import json
import os
import tempfile
from typing import NamedTuple

from sdd.model.files import BadInput, bytes_of
from sdd.model.reading import catalogue_at, workload_at
from sdd.model.report import report_of
from sdd.model.words import value_word
from sdd.programs import MOST_SECONDS
from sdd.view.replay import Contradiction, Reader

MOST_EXACT = 2**53          # a number above it is rounded in a browser
MOST_EVENTS = 100_000


def exact(digits):
    if abs(int(digits)) > MOST_EXACT:
        raise BadInput("a time of this run is above 2^53, which a page can't show exactly")
    return int(digits)


def read_text(text):
    """The first line and the lines of the events."""
    lines = text.split("\n")
    if lines.pop() != "" or not lines:
        raise BadInput("the text of the events doesn't end with a line")
    if len(lines) - 1 > MOST_EVENTS:
        raise BadInput("the run has %d events; a page shows at most %d" % (len(lines) - 1, MOST_EVENTS))
    try:
        shown = [json.loads(x, parse_int=exact) for x in lines]
        if shown[0]["inside"] != 1 or any(x["event"] != k for k, x in enumerate(shown[1:], 1)):
            raise BadInput("the text of the events isn't in the form that this script reads")
    except (ValueError, KeyError, TypeError):
        raise BadInput("the text of the events isn't in the form that this script reads") from None
    return shown[0], shown[1:]


class Reported(NamedTuple):
    """The lines of a report by their parts."""
    records: list
    order: list
    replies: list           # pairs of a transaction and the lines of its reply
    pending: list
    copies: dict            # site and fragment -> rows as they are spelled


def parts_of(text):
    report = report_of("what `run` printed", text)
    replies = [(name, [row_word(row) for rows in x.queries for row in rows] if x.kind == "ok" else [x.kind]) for name, x in report.replies.items()]
    copies = {place: [row_word(row) for row in rows] for place, rows in report.copies.items()}
    return Reported([x.line for x in report.records], report.order, replies, [" ".join([x.txn, x.kind, *x.words]) for x in report.pending], copies)


def row_word(row):
    return " ".join(map(value_word, row))


def judge(first, lines, reported, keys):
    """Refuses a text and a report that aren't of one run."""
    if any(int(x.split(" ")[0]) > len(lines) for x in reported.records[-1:]):
        raise BadInput("the report has an event that the text of the events doesn't have")
    reader = Reader(first, keys)
    try:
        for line in lines:
            reader.apply(line)
    except (Contradiction, KeyError, IndexError) as fault:
        raise BadInput("the text of the events contradicts itself: %s" % fault) from None
    for place, rows in reader.copies.items():
        if sorted(rows.values()) != sorted(reported.copies.get(place, ())):
            raise BadInput("the text of the events and the report aren't of one run: their copies of %s at %s differ" % place[::-1])


class Parts(NamedTuple):
    """A workload's lines by their kinds."""
    rows: list
    transactions: list      # lists of lines, from `txn` to `done`
    lists: list             # so
    events: list


def read_parts(text):
    """The lines of a workload that a program accepts."""
    made, block = Parts([], [], [], []), None
    for line in text.split("\n")[:-1]:
        word = line.split(" ")[0]
        if block is not None:
            block.append(line)
            block = None if line == "done" else block
        elif word in ("txn", "list"):
            block = [line]
            (made.transactions if word == "txn" else made.lists).append(block)
        elif word == "row":
            made.rows.append(line)
        elif word != "end":
            made.events.append(line)
    return made


def spelled(parts):
    blocks = [x for block in parts.transactions + parts.lists for x in block]
    return "".join(x + "\n" for x in parts.rows + blocks + parts.events + ["end"])


def catalogue_data(programs, path):
    """What a page shows of the catalogue."""
    graph, table = (programs.tell([word, path]).split("\n")[:-1] for word in ("graph", "table"))
    catalogue = catalogue_at(path)
    relations = [{"name": x.name, "columns": x.names, "key": x.key} for x in catalogue.relations]
    fragments = [{"name": x.name, "relation": x.relation, "key": catalogue.relation[x.relation].key_place} for x in catalogue.fragments]
    classes = [{"name": x.name, "at": x.site, "list": 0, "reads": ["D%d" % dm for dm in sorted({dm for _, dm in x.reads})]} for x in catalogue.classes]
    return {"graph": graph, "table": table, "relations": relations, "fragments": fragments, "classes": classes}


def list_classes(parts):
    """The classes of lists, with the number of their list."""
    for k, block in enumerate(parts.lists, 1):
        for words in (x.split(" ") for x in block):
            if words[0] == "class":
                yield {"name": words[1], "at": words[2], "list": k}


def event_data(programs, catalogue, workload, known, seconds=MOST_SECONDS):
    """What a page shows of the run of two files; KNOWN is what it shows of the catalogue."""
    reported = parts_of(programs.tell(["run", catalogue, workload], seconds))
    first, lines = read_text(programs.tell_inside([catalogue, workload], seconds))
    judge(first, lines, reported, {x["name"]: x["key"] for x in known["fragments"]})
    parts = read_parts(bytes_of(workload).decode())
    transactions = [dict(zip(("name", "at"), x[0].split(" ")[1:]), lines=x[1:-1]) for x in parts.transactions]
    return {"first": first, "lines": lines, "records": reported.records, "order": reported.order,
            "replies": reported.replies, "pending": reported.pending, "transactions": transactions, "events": parts.events,
            "copies": [(" ".join(x), rows) for x, rows in reported.copies.items()], **known, "classes": known["classes"] + list(list_classes(parts))}


def run_data(programs, catalogue, workload, name):
    """All that a page shows of a run: both programs get copies of the files as they were when they were accepted."""
    workload_at(workload, catalogue_at(catalogue))      # or it is refused with its place
    with tempfile.TemporaryDirectory(prefix="page-") as folder:
        paths = [os.path.join(folder, x) for x in ("catalogue.toml", "workload")]
        for path, given in zip(paths, (catalogue, workload)):
            content = bytes_of(given)
            with open(path, "wb") as f:
                f.write(content)
        return {"name": name, **event_data(programs, *paths, catalogue_data(programs, paths[0]))}
