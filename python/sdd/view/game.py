"""A workload that grows by requests of a page: what sdd play does, without the server around it.

A request is an object with `do`; the answer is an object and an HTTP status. A request that is refused
changes nothing. Events are judged here by their form alone, so that a line can't bring a second one; names,
places and statements are judged by the program, whose fault is reported with the line of what was asked for.
"""
import os
import re
import tempfile
from typing import NamedTuple

from sdd.design.sql_statements import workload_statements
from sdd.explain.refusals import Given, refusal_of
from sdd.model.files import BadInput, bytes_of, write_text
from sdd.model.reading import catalogue_at, workload_at
from sdd.programs import Refused
from sdd.view.states import Parts, catalogue_data, event_data, read_parts, spelled

MOST_WORKLOAD = 4 * 2**20
MOST_EVENTS = 20_000        # of the schedule
MOST_SECONDS = 20           # for a run
MOST_LINES = 66             # of a transaction
SITE, MODULE = r"(?:U|[TD](?:[1-9]|1[0-6]))", r"(?:[1-9]|1[0-6])"
NAME, NUMBER = r"[A-Za-z][A-Za-z0-9_]{0,31}", r"[1-9][0-9]{0,9}"
EVENT = re.compile("(?:submit {n}|(?:deliver|lose|repeat) {s} {s} {k}|resend {s} {s}|tick T{m} {k}|(?:down|up) [TD]{m}|settle|redeclare)".format(
    n=NAME, s=SITE, k=NUMBER, m=MODULE))
FAULT = re.compile(r"workload: line (\d+): (.+)")


class Change(NamedTuple):
    """What a request changed, so that it can be taken back: events from a place on, and what was added before."""
    place: int
    taken: list             # events
    put: list
    transactions: list = []
    rows: list = []


class BadRequest(Exception):
    """A request that no page makes."""


def wanted(condition):
    if not condition:
        raise BadRequest


def is_line(x):
    return isinstance(x, str) and "\n" not in x and "\r" not in x


class Game:
    def __init__(self, programs, catalogue, workload, name):
        self.programs, self.name, self.folder = programs, name, tempfile.TemporaryDirectory(prefix="play-")
        self.catalogue, self.workload = (os.path.join(self.folder.name, x) for x in ("catalogue.toml", "workload"))
        with open(self.catalogue, "wb") as f:
            f.write(bytes_of(catalogue))
        self.parts, self.version = Parts([], [], [], []), 0
        self.done, self.undone, self.shown = [], [], []
        self.read_catalogue = catalogue_at(catalogue)
        self.known = catalogue_data(programs, self.catalogue)
        if workload:
            with open(self.workload, "wb") as f:
                f.write(bytes_of(workload))
            workload_at(workload, self.read_catalogue)              # or it is refused with its place
            programs.tell(["run", self.catalogue, self.workload])
            self.parts = read_parts(bytes_of(self.workload).decode())
        self.data = self.run()

    def text(self):
        return spelled(self.parts)

    def run(self):
        """What a page shows of the workload as it is now."""
        text = self.text()
        if len(text.encode()) > MOST_WORKLOAD or len(self.parts.events) > MOST_EVENTS:
            raise BadInput("the workload would be too long")
        write_text(self.workload, text)
        return event_data(self.programs, self.catalogue, self.workload, self.known, MOST_SECONDS)

    # Changes, done and taken back.

    def apply(self, change):
        end = change.place + len(change.taken)
        self.parts.events[change.place:end] = change.put
        self.parts.transactions.extend(change.transactions)
        self.parts.rows.extend(change.rows)

    def take_back(self, change):
        self.parts.events[change.place:change.place + len(change.put)] = change.taken
        for mine, added in ((self.parts.transactions, change.transactions), (self.parts.rows, change.rows)):
            del mine[len(mine) - len(added):]

    def change_of(self, ask):
        """The change that a request asks for."""
        kind, events = ask["do"], self.parts.events
        if kind == "event":
            wanted(is_line(ask.get("line")) and EVENT.fullmatch(ask["line"]))
            return Change(len(events), [], [ask["line"]])
        if kind == "back":
            keep, put = ask.get("keep"), ask.get("spelled")
            wanted(type(keep) is int and 0 <= keep <= len(events))
            wanted(isinstance(put, list) and len(put) <= MOST_EVENTS and all(is_line(x) and EVENT.fullmatch(x) for x in put))
            return Change(keep, events[keep:], put)
        if kind == "txn":
            lines = ask.get("text")
            wanted(isinstance(lines, list) and 2 <= len(lines) <= MOST_LINES and all(map(is_line, lines)))
            wanted(lines[0].startswith("txn ") and lines[-1] == "done" and "done" not in lines[:-1])
            lines = [lines[0], *workload_statements(self.read_catalogue, lines[1:-1]), "done"]
            put = ["submit " + lines[0].split(" ")[1]] if ask.get("submit") is True else []
            return Change(len(events), [], put, [lines])
        wanted(kind == "row" and is_line(ask.get("text")))
        if events or not ask["text"].startswith("row "):
            raise BadInput("an initial row begins with `row`, and is added before the first event")
        return Change(0, [], [], [], [ask["text"]])

    def step(self, ask):
        """Does what is asked, takes it back or does it again; the run that comes of it is `data` then."""
        if ask["do"] in ("undo", "redo"):
            mine, others = (self.done, self.undone) if ask["do"] == "undo" else (self.undone, self.done)
            if not mine:
                raise BadInput("there is nothing to %s" % ask["do"])
            change = mine.pop()
            (self.take_back if ask["do"] == "undo" else self.apply)(change)
            others.append(change)
            self.data = self.run()
            return
        change = self.change_of(ask)
        self.apply(change)
        try:
            self.data = self.run()
        except Refused as fault:
            reported = self.description_of(str(fault), change)
            self.take_back(change)
            raise BadInput(reported) from None
        except BadInput:
            self.take_back(change)
            raise
        self.done.append(change)
        self.undone.clear()

    def description_of(self, fault, change):
        """The program's line, with the line of what was asked for in place of that of the workload."""
        found = FAULT.fullmatch(fault)
        if not found:
            return "limit: the run would have too many events" if fault == "limit" else fault
        rule, line = found[2], int(found[1])
        refusal = refusal_of(fault, [Given(self.catalogue), Given(self.workload)])
        reported = "; ".join(["%s: %s" % (rule, refusal.cause.what)] + [x for x in refusal.helps if x.startswith("did you mean")])
        before = len(self.parts.rows) + sum(map(len, self.parts.transactions))
        if change.transactions and before - len(change.transactions[0]) < line <= before:
            place = line - before + len(change.transactions[0])
            return "line %d, `%s`: %s" % (place, change.transactions[0][place - 1], reported)
        if change.rows:
            return reported
        return "`%s`: %s" % (change.put[-1], reported) if change.put else fault

    # Requests.

    def act(self, ask):
        """The answer to a request, and its status."""
        try:
            wanted(isinstance(ask, dict) and isinstance(ask.get("do"), str))
            if ask["do"] == "look":
                return self.answer(0, ask.get("all") is True), 200
            if ask.get("version") != self.version:
                return {"refused": "another page changed the schedule; this one shows it now"}, 409
            self.step(ask)
        except BadRequest:
            return {"refused": "no such request"}, 400
        except BadInput as fault:
            return {"refused": str(fault)}, 200
        self.version += 1
        since = ask.get("since", 0)
        return self.answer(since if type(since) is int and since >= 0 else 0, False), 200

    def answer(self, since, with_all):
        """What the page doesn't have: lines behind those that are as they were when they were sent."""
        lines, same = self.data["lines"], 0
        most = min(since, len(lines), len(self.shown))
        while same < most and lines[same] == self.shown[same]:
            same += 1
        self.shown = lines
        run = {k: v for k, v in self.data.items() if with_all or k not in self.known or k == "classes"}
        return {"version": self.version, "since": same, "undo": bool(self.done), "redo": bool(self.undone),
                "run": {**run, "name": self.name, "lines": lines[same:]}}
