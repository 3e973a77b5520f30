"""A report of `run`, read into records. Shared by the scripts that look at reports.

    report = read_report("examples/bridge/report")

`read_report` takes the lines of docs/FORMATS.md, "The report"; a line that is none of them, or that
doesn't stand where it may, is refused by `BadInput`, with the number of the line.
"""
import re
from dataclasses import dataclass, field
from typing import NamedTuple, NoReturn

from sdd.model.files import BadInput, text_of
from sdd.model.words import Row, Scalar


class Record(NamedTuple):
    """A line of what happened; what its kind doesn't tell is None."""
    place: int              # among the records, from 0
    event: int
    kind: str               # submit, start, arrive, wait, answer, reject, commit, apply, pass, nothing
    line: str               # as it stands in the report
    txn: str | None = None
    attempt: int | None = None
    site: str | None = None     # D1 ..
    cls: str | None = None      # a class's name, `-` for that of the transactions that no class covers
    time: int | None = None     # a timestamp, or the time that is passed
    upto: int | None = None     # start: the time of P2
    waits: tuple[tuple[str, int], ...] = ()     # wait: pairs of a class and a time


class Reply(NamedTuple):
    kind: str                           # ok, overflow, toomany
    queries: tuple[tuple[Row, ...], ...]    # for each query its rows


class Pending(NamedTuple):
    txn: str
    kind: str               # queued, waits, underway
    words: tuple[str, ...]


@dataclass
class Report:
    records: list[Record] = field(default_factory=list)
    order: list[str] = field(default_factory=list)
    replies: dict[str, Reply] = field(default_factory=dict)             # transaction -> Reply
    shipped: dict[str, tuple[int, int]] = field(default_factory=dict)   # transaction -> values, rows
    pending: list[Pending] = field(default_factory=list)
    copies: dict[tuple[str, str], list[Row]] = field(default_factory=dict)      # site, fragment -> rows

    def attempts(self) -> dict[tuple[str, int], Record]:
        """The Start of each attempt, by transaction and number."""
        return {(x.txn, x.attempt): x for x in self.records if x.kind == "start" and x.txn is not None and x.attempt is not None}

    def commits(self) -> dict[str, Record]:
        """The Commit of each committed transaction."""
        return {x.txn: x for x in self.records if x.kind == "commit" and x.txn is not None}


NAME = r"([A-Za-z][A-Za-z0-9_]*)"
ATTEMPT = NAME + r"#(\d+)"
MODULE = r"(D\d+)"
CLASS = r"([A-Za-z][A-Za-z0-9_]*|-)"
FORMS = {
    "submit": (NAME, "txn"),
    "start": (ATTEMPT + " " + CLASS + r" (\d+) (\d+|-)", "txn attempt cls time upto"),
    "arrive": (ATTEMPT + " " + MODULE, "txn attempt site"),
    "wait": (ATTEMPT + " " + MODULE + r"((?: (?:[A-Za-z][A-Za-z0-9_]*|-) \d+)+)", "txn attempt site waits"),
    "answer": (ATTEMPT + " " + MODULE, "txn attempt site"),
    "reject": (ATTEMPT + " " + MODULE + " " + CLASS + r" (\d+)", "txn attempt site cls time"),
    "commit": (ATTEMPT, "txn attempt"),
    "apply": (NAME + " " + MODULE, "txn site"),
    "pass": (CLASS + " " + MODULE + r" (\d+)", "cls site time"),
    "nothing": ("", ""),
}
PENDING = {"queued": CLASS + r" (\d+)", "waits": MODULE + " " + CLASS + r" (\d+)", "underway": r"([UTD]\d*)"}
VALUE = re.compile(r' (?:(-?\d+)|"((?:[^"\\]|\\["\\])*)")(?= |$)')


def row_of(line: str) -> Row | None:
    """The values behind `row`, or None."""
    place = 3
    values: list[Scalar] = []
    while place < len(line):
        found = VALUE.match(line, place)
        if found is None:
            return None
        number, text = found.groups()
        values.append(int(number) if text is None else re.sub(r"\\(.)", r"\1", text))
        place = found.end()
    return tuple(values) if values else None


def record_of(place: int, line: str) -> Record | None:
    event, _, rest = line.partition(" ")
    kind, _, words = rest.partition(" ")
    if not event.isdigit() or kind not in FORMS:
        return None
    form, names = FORMS[kind]
    found = re.fullmatch(form, words)
    if found is None:
        return None
    given = dict(zip(names.split(), found.groups()))
    attempt, time, upto = (None if given.get(x, "-") == "-" else int(given[x]) for x in ("attempt", "time", "upto"))
    pairs = given.get("waits", "").split()
    waits = tuple(zip(pairs[::2], map(int, pairs[1::2])))
    return Record(place, int(event), kind, line, given.get("txn"), attempt, given.get("site"), given.get("cls"), time, upto, waits)


class Lines:
    """The lines of a file, taken one by one."""

    def __init__(self, path: str, text: str) -> None:
        self.path, self.lines, self.place = path, text.split("\n")[:-1], 0

    def head(self) -> str:
        """The first word of the next line."""
        return self.lines[self.place].split(" ")[0] if self.place < len(self.lines) else ""

    def take(self) -> str:
        self.place += 1
        if self.place > len(self.lines):
            self.fault("the file ends too early")
        return self.lines[self.place - 1]

    def fault(self, what: str) -> NoReturn:
        """The fault of the line that was taken last."""
        raise BadInput("%s: line %d: %s" % (self.path, self.place, what))

    def rows(self, count: int) -> list[Row]:
        rows: list[Row] = []
        for _ in range(count):
            row = row_of(self.take()) if self.head() == "row" else None
            if row is None:
                self.fault("fewer rows than are reported")
            rows.append(row)
        return rows


def take_form(lines: Lines, form: str, what: str) -> tuple[str, ...]:
    found = re.fullmatch(form, lines.take())
    if found is None:
        lines.fault("no line of %s" % what)
    return found.groups()


def read_report(path: str) -> Report:
    return report_of(path, text_of(path))


def report_of(path: str, text: str) -> Report:
    """The report that a text is; PATH is its name in refusals."""
    lines = Lines(path, text)
    report = Report()
    while lines.head().isdigit():
        record = record_of(len(report.records), lines.take())
        if record is None:
            lines.fault("no record of a report")
        if report.records and record.event < report.records[-1].event:
            lines.fault("an event with a smaller number")
        report.records.append(record)
    if lines.head() != "order":
        lines.take()
        lines.fault("no line `order`: is this what `run` prints?")
    report.order = lines.take().split(" ")[1:]
    take_replies(lines, report)
    while lines.head() == "shipped":
        name, values, rows = take_form(lines, "shipped %s (\\d+) (\\d+)" % NAME, "what was shipped")
        report.shipped[name] = int(values), int(rows)
    while lines.head() == "pending":
        name, kind, words = take_form(lines, "pending %s (queued|waits|underway) (.*)" % NAME, "what is pending")
        found = re.fullmatch(PENDING[kind], words)
        if found is None:
            lines.fault("no line of what is pending")
        report.pending.append(Pending(name, kind, found.groups()))
    while lines.head() == "copy":
        site, fragment, count = take_form(lines, "copy %s %s (\\d+)" % (MODULE, NAME), "a copy")
        report.copies[site, fragment] = lines.rows(int(count))
    if lines.head() != "end" or lines.take() != "end" or lines.place != len(lines.lines):
        lines.fault("not the end of a report")
    judge(path, report)
    return report


def plain_of(path: str, text: str) -> tuple[list[str], dict[str, Reply]]:
    """The order and the replies that `plain` prints; PATH is the text's name in refusals."""
    lines, report = Lines(path, text), Report()
    report.order = lines.take().split(" ")[1:]
    take_replies(lines, report)
    if lines.take() != "end":
        lines.fault("not the end of the replies")
    return report.order, report.replies


def take_replies(lines: Lines, report: Report) -> None:
    while lines.head() == "reply":
        name, kind = take_form(lines, "reply %s (ok|overflow|toomany)" % NAME, "a reply")
        queries: list[tuple[Row, ...]] = []
        while lines.head() == "query":
            _, count = take_form(lines, r"query (\d+) (\d+)", "a query's answer")
            queries.append(tuple(lines.rows(int(count))))
        report.replies[name] = Reply(kind, tuple(queries))


def judge(path: str, report: Report) -> None:
    """What each line takes for granted of the others."""
    starts, commits = report.attempts(), report.commits()
    submitted = {x.txn for x in report.records if x.kind == "submit"}
    for x in report.records:
        if x.txn is not None and x.txn not in submitted:
            raise BadInput("%s: %s has no submit" % (path, x.txn))
        if x.attempt is not None and x.kind != "start" and (x.txn, x.attempt) not in starts:
            raise BadInput("%s: %s#%d has no start" % (path, x.txn, x.attempt))
        if x.kind == "apply" and x.txn not in commits:
            raise BadInput("%s: %s is applied and has no commit" % (path, x.txn))
    if sorted(report.order) != sorted(commits) or list(report.replies) != report.order:
        raise BadInput("%s: order and replies aren't those of the committed transactions" % path)
