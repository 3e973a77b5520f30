"""Files of histories: JSON lines, as docs/HISTORIES.md describes them (history.schema.json).

    history = read_history("h.jsonl")
    write_history("h.jsonl", about, tables, rows, transactions, left)
"""
import json
import math

from sdd.judge.recorded import ABORTED, COMMITTED, NEVER, UNKNOWN, History, Recorded, Table, catalogue_of
from sdd.judge.steps import Body
from sdd.model.files import BadInput, text_of, write_text
from sdd.model.statements import Txn
from sdd.model.words import KEYWORDS, is_name

VERSION = 1
OUTCOMES = (COMMITTED, ABORTED, UNKNOWN)
MEMBERS = {"table": {"table", "columns", "key", "rows"}, "left": {"left", "rows"},
           "transaction": {"transaction", "outcome", "session", "begin", "end", "steps", "reason"}}
STEP_MEMBERS = {"do", "rows", "at", "read", "key", "row", "write", "delete", "sql"}


class FileReader:
    """The lines of a file, made into a history one by one."""

    def __init__(self, path, text):
        self.path, self.number, self.text = path, 0, text
        self.about, self.tables, self.rows, self.left, self.made, self.names = {}, {}, {}, {}, [], set()
        self.catalogue = None               # of the tables, once the first transaction is there

    def fault(self, what):
        raise BadInput("%s: line %d: %s" % (self.path, self.number, what))

    def history(self):
        for line in self.text.split("\n"):
            self.number += 1
            if line.strip():
                self.add(self.object(line))
        if not self.about:
            self.fault('the first line has to be {"history": %d, ..}' % VERSION)
        return self.history_of_lines()

    def history_of_lines(self):
        return History(self.about, self.tables, self.rows, self.made, self.left, self.path)

    def object(self, line):
        try:
            made = json.loads(line)
        except (ValueError, RecursionError):
            self.fault("not JSON")
        if type(made) is not dict:
            self.fault("no object of JSON")
        return made

    def add(self, line):
        if not self.about:
            if line.get("history") != VERSION or type(line["history"]) is not int:
                self.fault('the first line has to be {"history": %d, ..}' % VERSION)
            self.about = line
            return
        kinds = [x for x in MEMBERS if x in line]
        if len(kinds) != 1:
            self.fault("a line has to be a `table`, a `transaction` or what is `left` of a table")
        strange = sorted(set(line) - MEMBERS[kinds[0]])
        if strange:
            self.fault("a line with `%s` has no member `%s`" % (kinds[0], strange[0]))
        getattr(self, "add_" + kinds[0])(line)

    def name(self, word):
        if type(word) is not str or not is_name(word):
            self.fault("%r is no name: 1 to 32 letters, digits and _, a letter first, and none of %s" % (word, ", ".join(KEYWORDS)))
        return word

    def add_table(self, line):
        name, columns = self.name(line["table"]), line.get("columns")
        if name in self.tables or self.catalogue is not None:
            self.fault("tables stand before the transactions, each once")
        if type(columns) is not list or not columns or any(type(x) is not list or len(x) != 2 or x[1] not in ("int", "text") for x in columns):
            self.fault('`columns` has to be a list as [["id", "int"], ["owner", "text"]]')
        names = tuple(self.name(x) for x, _ in columns)
        if line.get("key") not in names or dict(map(tuple, columns))[line["key"]] != "int" or len(set(names)) < len(names):
            self.fault("`key` has to be one of the columns, of the kind int, and no two columns may have one name")
        self.tables[name] = Table(name, names, tuple(x for _, x in columns), names.index(line["key"]))
        self.rows[name] = self.rows_by_key(self.tables[name], line.get("rows", []))

    def add_left(self, line):
        if type(line["left"]) is not str or line["left"] not in self.tables or line["left"] in self.left:
            self.fault("`left` has to be a table, each once")
        self.left[line["left"]] = self.rows_by_key(self.tables[line["left"]], line.get("rows"))

    def rows_by_key(self, table, rows):
        if type(rows) is not list:
            self.fault("`rows` has to be a list of rows")
        body = Body(None, self.tables, "%s: line %d" % (self.path, self.number))
        made = [body.row(table, x) for x in rows]
        if len({x[table.key] for x in made}) < len(made):
            self.fault("two rows have one key")
        return {x[table.key]: x for x in made}

    def time(self, line, member, otherwise):
        value = line.get(member)
        if value is None:
            return otherwise
        if type(value) not in (int, float) or not math.isfinite(value):
            self.fault("`%s` has to be a number" % member)
        return value

    def add_transaction(self, line):
        name, outcome, session = self.name(line["transaction"]), line.get("outcome", COMMITTED), line.get("session")
        if name in self.names:
            self.fault("there are two transactions %s" % name)
        if outcome not in OUTCOMES:
            self.fault("`outcome` has to be one of %s" % ", ".join(OUTCOMES))
        if session is not None and type(session) not in (int, str):
            self.fault("`session` has to be a number or a text")
        begin, end = self.time(line, "begin", -NEVER), self.time(line, "end", None)
        if end is not None and end < begin:
            self.fault("it ends before it begins")
        body, number = self.body(name, line.get("steps", [])), len(self.made) + 1
        lines, statements = body.finish()
        self.names.add(name)
        self.made.append(Recorded(
            name, outcome, None if session is None else str(session), begin, number if end is None else end,
            NEVER if end is None or outcome == UNKNOWN else end, lines, Txn(name, 1, statements), tuple(body.replies), tuple(body.writes),
            tuple(body.own_faults), body.blind))

    def body(self, name, steps):
        if type(steps) is not list or any(type(x) is not dict for x in steps):
            self.fault("`steps` has to be a list of objects")
        if self.catalogue is None:
            self.catalogue = catalogue_of(self.tables)
        body = Body(self.catalogue, self.tables, "%s: line %d, %s" % (self.path, self.number, name))
        for step in steps:
            strange = sorted(set(step) - STEP_MEMBERS)
            if strange:
                self.fault("a step has no member `%s`" % strange[0])
            self.time(step, "at", None)
            body.add(step)
        return body




def read_history(path):
    return FileReader(path, text_of(path)).history()


def history_lines(about, tables, rows, transactions, left):
    """The lines of a file: `transactions` and `left` as the file has them."""
    yield {"history": VERSION} | about
    for x in tables.values():
        yield {"table": x.name, "columns": [list(c) for c in zip(x.columns, x.kinds)], "key": x.columns[x.key],
               "rows": [list(row) for _, row in sorted(rows[x.name].items())]}
    yield from transactions
    for name, mine in left.items():
        yield {"left": name, "rows": [list(row) for row in mine]}


def write_history(path, *parts):
    write_text(path, "".join(json.dumps(line, ensure_ascii=False) + "\n" for line in history_lines(*parts)))
