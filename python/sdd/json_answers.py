"""What the programs print, as JSON: `--json` of calls.py. python/README.md names the members."""
import json

from sdd.model.report import plain_of, report_of
from sdd.view.graph_picture import edges_of, reads_of


def as_json(word, text):
    """The text that a program prints for the command WORD, as JSON."""
    return json.dumps(SHOWN[word](text), ensure_ascii=False, indent=1) + "\n"


def block_of(word):
    """The number of a block; None where an edge is in none, or a read meets none."""
    return None if word == "-" else int(word)


def catalogue_data(text):
    """What `ok tms 2 dms 1 ..` says."""
    words = text.split()[1:]
    return dict(zip(words[::2], map(int, words[1::2])))


def edge_data(kind, names, block):
    members = {"vertical": ["class"], "horizontal": ["one", "other"], "diagonal": ["reader", "writer", "fragment"]}[kind]
    return {"kind": kind, **dict(zip(members, names)), "block": block_of(block)}


def graph_data(text):
    return {"edges": [edge_data(*x) for x in edges_of(text)]}


def table_data(text):
    members = ["reader", "fragment", "at", "writer", "protocol"]
    return {"reads": [{**dict(zip(members, x)), "block": block_of(x[5])} for x in reads_of(text)]}


def figures_data(text):
    """What `make` prints: a name and a number a line."""
    return {name: int(number) for name, number in (x.split(" ") for x in text.split("\n")[:-2])}


def verdict_data(text):
    words = text.split()
    return {"serializable": words[0] == "yes", **({"line": int(words[1])} if len(words) > 1 else {})}



def robust_data(text):
    """What `robust` prints: of classes a second line tells the first read that has P3."""
    answer, *lines = text.removeprefix("snapshot isolation: ").split("\n")[:-1]
    if answer in ROBUST:
        return {"robust": ROBUST[answer], **robust_why(lines)}
    if answer == "enough":
        return {"enough": True}
    reader, _, fragment, _, writer, _ = lines[0].replace(",", "").split(" ")
    return {"enough": False, "reader": reader, "fragment": fragment, "writer": writer}


def robust_why(lines):
    """A run of transactions that is like no serial one, or the three by which one may be a pivot."""
    words = [line.replace(",", "").split(" ") for line in lines]
    if words and words[0][0] == "pivot":
        return {name: words[0][n] for name, n in (("pivot", 1), ("missed", 4), ("missing", 9))}
    return {"run": [{"step": step, "txn": txn} for step, txn in words]} if words else {}


def needs_data(text):
    classes = {}
    for line in text.split("\n")[:-1]:
        name, kind, *sites = line.split(" ")
        classes.setdefault(name, {})[kind] = sites
    return {"classes": classes}


def replies_data(replies):
    return {name: {"kind": x.kind, "queries": x.queries} for name, x in replies.items()}


def plain_data(text):
    order, replies = plain_of("what `plain` printed", text)
    return {"order": order, "replies": replies_data(replies)}


def report_data(text):
    report = report_of("the report", text)
    records = [{"class" if k == "cls" else k: v for k, v in x._asdict().items() if k not in ("place", "line") and v not in (None, ())} for x in report.records]
    return {"records": records, "order": report.order, "replies": replies_data(report.replies),
            "shipped": {name: {"values": v, "rows": r} for name, (v, r) in report.shipped.items()},
            "pending": [{"txn": x.txn, "kind": x.kind, "words": x.words} for x in report.pending],
            "copies": [{"at": at, "fragment": fragment, "rows": rows} for (at, fragment), rows in report.copies.items()]}


ROBUST = {"robust": True, "not robust": False, "unknown": None}       # what is answered of a workload
SHOWN = {"check": catalogue_data, "graph": graph_data, "table": table_data, "make": figures_data, "verify": verdict_data,
         "robust": robust_data, "needs": needs_data, "plain": plain_data, "run": report_data}
