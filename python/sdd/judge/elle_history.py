"""Histories of Elle, list-append or registers, as histories of tables.

    history = read_elle("history.edn")

A line is an operation: a map of EDN with :type (:invoke, :ok, :info, :fail), :process and :value, a list of [:append KEY ELEMENT] and
[:r KEY LIST], or of [:w KEY VALUE] and [:r KEY VALUE]. What can't be said is refused with its line.

A register is a row of the table `register`. A list is a row of `list`, its length and its last element: the longest list that was read tells at
which place each element stands, and whoever appends one has to find the list as long as that. Elements that nobody read are rows of `unread`:
whoever reads the list or appends an element that was read has to find none of them. An operation of type :info is of unknown
outcome; it is taken as committed where somebody read what it appended.
"""
from typing import NamedTuple

from sdd.judge.check_history import edn
from sdd.judge.history_file import FileReader
from sdd.judge.recorded import ABORTED, COMMITTED, NEVER, UNKNOWN
from sdd.model.files import BadInput, text_of

OUTCOMES = {":ok": COMMITTED, ":info": UNKNOWN, ":fail": ABORTED}
LIST, UNREAD, REGISTER = "list", "unread", "register"


class Operation(NamedTuple):
    line: int
    outcome: str
    process: object
    begin: int                  # the number of its invocation
    end: int                    # the number of its completion
    steps: tuple

    def name(self):
        return "op%d" % self.line


def read_elle(path):
    return Elle(path, operations(path)).history()


def fault(path, line, what):
    raise BadInput("%s: line %d: %s" % (path, line, what))


def operations(path):
    """The transactions of a file: each completion with its invocation, and the invocations that nothing completes."""
    opened, made = {}, []
    for number, line in enumerate(text_of(path).split("\n"), 1):
        if not line.strip():
            continue
        told = map_of(path, number, line)
        kind, process = told.get(":type"), told.get(":process")
        if type(process) is not int:                # what the test does to the system, and no client
            continue
        if kind not in OUTCOMES and kind != ":invoke":
            fault(path, number, "no :type of an operation: %s" % kind)
        if told.get(":f", ":txn") != ":txn":
            fault(path, number, ":f %s is no transaction of a list-append or register history" % told[":f"])
        if kind == ":invoke":
            opened[process] = number, told
            continue
        begin = opened.pop(process, (number, told))[0]
        made.append(Operation(number, OUTCOMES[kind], process, begin, number, steps_of(path, number, told)))
    for process, (number, told) in opened.items():
        made.append(Operation(number, UNKNOWN, process, number, number, steps_of(path, number, told)))
    return made


def map_of(path, number, line):
    try:
        told = edn(line.strip().strip("[],")) if line.strip().startswith("[{") else edn(line)
    except (ValueError, IndexError, TypeError, RecursionError):
        fault(path, number, "no map of EDN")
    if type(told) is not dict:
        fault(path, number, "no map of EDN")
    return told


def steps_of(path, number, told):
    steps = told.get(":value") or ()
    if type(steps) is not tuple or any(type(x) is not tuple or len(x) != 3 for x in steps):
        fault(path, number, ":value is no list of [:r ..], [:append ..] or [:w ..]")
    strange = next((x for x in steps if x[0] not in (":r", ":append", ":w")), None)
    if strange is not None:
        fault(path, number, "%s can't be judged here: only :r, :append and :w" % (strange[0],))
    return steps


class Elle:
    """The operations of a file, made into the lines of a history."""

    def __init__(self, path, operations):
        self.path, self.operations = path, operations
        kinds = {x[0] for op in operations for x in op.steps} - {":r"}
        if len(kinds) > 1:
            raise BadInput("%s: both :append and :w; a history has lists or registers" % path)
        self.lists = ":append" in kinds or not kinds and any(type(x[2]) is tuple for op in operations for x in op.steps)
        self.keys = self.numbers(x[1] for op in operations for x in op.steps)
        self.reader = FileReader(path, "")

    @staticmethod
    def numbers(values):
        """A whole number for each value: itself where all are such numbers."""
        values = list(dict.fromkeys(values))
        return {x: x for x in values} if all(type(x) is int for x in values) else {x: n for n, x in enumerate(values, 1)}

    def history(self):
        about = {"history": 1, "engine": "a history of Elle", "form": "list-append" if self.lists else "registers"}
        if any(k != n for k, n in self.keys.items()):
            about["keys"] = {str(n): str(k) for k, n in self.keys.items()}
        self.reader.add(about)
        form = Lists(self) if self.lists else Registers(self)
        for table in form.tables():
            self.reader.add(table)
        for op in self.operations:
            self.reader.number = op.line
            steps, own_faults, happened = form.steps(op)
            outcome = COMMITTED if happened and op.outcome == UNKNOWN else op.outcome
            self.reader.add({"transaction": op.name(), "outcome": outcome, "session": op.process, "begin": op.begin, "end": op.end, "steps": steps})
            last = self.reader.made[-1]
            until = NEVER if op.outcome == UNKNOWN else last.until
            self.reader.made[-1] = last._replace(until=until, own_faults=last.own_faults + tuple(own_faults))
        return self.reader.history_of_lines()


class Registers:
    def __init__(self, elle):
        self.elle = elle
        values = {type(x[2]) for op in elle.operations for x in op.steps if x[2] is not None}
        if len(values) > 1 or not values <= {int, str}:
            raise BadInput("%s: the values of registers have to be all whole numbers, or all words or texts" % elle.path)
        self.kind = "text" if values == {str} else "int"

    def tables(self):
        yield {"table": REGISTER, "columns": [["id", "int"], ["value", self.kind]], "key": "id"}

    def steps(self, op):
        made = []
        for kind, key, value in op.steps:
            key = self.elle.keys[key]
            if kind == ":w" and value is None:
                fault(self.elle.path, op.line, "a write of nil can't be told from a register that nobody wrote")
            if kind == ":w":
                made.append({"write": REGISTER, "row": [key, value]})
            elif op.outcome == COMMITTED:
                made.append({"read": REGISTER, "key": key, "row": None if value is None else [key, value]})
        return made, (), False


class Lists:
    def __init__(self, elle):
        self.elle, self.longest, self.unread = elle, {}, {}
        for op in elle.operations:
            for kind, key, value in op.steps:
                if kind == ":r" and op.outcome == COMMITTED:
                    if value is not None and type(value) is not tuple:
                        fault(elle.path, op.line, "the read of %s is no list" % (key,))
                    if len(value or ()) > len(self.longest.get(key, ())):
                        self.longest[key] = value
        self.elements = elle.numbers([v for op in elle.operations for x in op.steps for v in (x[2] if type(x[2]) is tuple else (x[2],)) if v is not None])
        self.place = {(key, v): n for key, mine in self.longest.items() for n, v in enumerate(mine)}
        appended = set()
        for op in elle.operations:
            for kind, key, v in op.steps:
                if kind == ":append" and (key, v) in appended:
                    fault(elle.path, op.line, "%s is appended to %s a second time, so nobody can tell who read which" % (v, key))
                appended |= {(key, v)} if kind == ":append" else set()

    def tables(self):
        yield {"table": LIST, "columns": [["id", "int"], ["length", "int"], ["last", "int"]], "key": "id"}
        yield {"table": UNREAD, "columns": [["id", "int"], ["list", "int"]], "key": "id"}

    def row(self, key, length):
        """The row of a list when it has its first so many elements."""
        return [self.elle.keys[key], length, self.elements[self.longest[key][length - 1]]]

    def steps(self, op):
        """The steps, faults in words, and whether somebody read what it appended."""
        asked, own, faults, made, happened = {}, {}, [], [], False
        for kind, key, value in op.steps:
            if kind == ":append":
                own.setdefault(key, []).append(value)
            elif op.outcome == COMMITTED:
                faults += self.read(key, tuple(value or ()), own.get(key, []), asked)
        for key, mine in own.items():
            known = [v for v in mine if (key, v) in self.place]
            happened |= bool(known)
            faults += self.append(key, mine, known, asked, made)
        return [x for key, lengths in asked.items() for length in sorted(lengths) for x in self.query(key, length)] + made, faults, happened

    def read(self, key, value, own, asked):
        others = value[:len(value) - len(own)]
        if list(value[len(others):]) != own:
            return ["it reads %s of %s behind its own append of %s" % (list(value), key, own[-1])]
        if value != self.longest.get(key, ())[:len(value)]:
            return ["it reads %s of %s, and another transaction %s" % (list(value), key, list(self.longest.get(key, ())))]
        if set(others) & set(own):
            return ["it reads its own append to %s before it" % (key,)]
        asked.setdefault(key, set()).add(len(others))
        return []

    def append(self, key, mine, known, asked, made):
        """The rows that its appends to a list leave."""
        faults, places = [], [self.place[key, v] for v in known]
        if places:
            if places != list(range(places[0], places[0] + len(known))):
                faults.append("its appends of %s to %s don't stand beside each other, in this order, in the list that was read" % (known, key))
            asked.setdefault(key, set()).add(places[0])
            made.append({"write": LIST, "row": self.row(key, places[-1] + 1), "at": places[-1] + 1})
        for v in mine:
            if (key, v) not in self.place:
                number = self.unread.setdefault((key, v), len(self.unread) + 1)
                made.append({"write": UNREAD, "row": [number, self.elle.keys[key]], "at": 1})
        return faults

    def query(self, key, length):
        """The list has so many elements, and nobody has appended one that nobody read."""
        yield {"read": LIST, "key": self.elle.keys[key], "row": self.row(key, length) if length else None}
        yield {"do": "query 1.id 1.list from %s where 1.list = %d" % (UNREAD, self.elle.keys[key]), "rows": []}
