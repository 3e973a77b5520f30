"""What a transaction of a history did, step by step, as statements that the judge takes.

All statements of a judged transaction see the rows as they were when it began. So the read of a row that the transaction wrote itself before is
compared here, and left out; any other statement that may see what one before it changed is refused.
"""
from sdd.judge.recorded import Write
from sdd.judge.touched import meet, touched_by
from sdd.model.files import BadInput
from sdd.model.statements import STATEMENTS, Put, Query, Update
from sdd.model.words import GREATEST, LEAST, Broken, is_key, is_quoted, is_sound, value_word, words_of

MOST_STATEMENTS, MOST_BYTES = 32, 255


def row_order(row):
    return [x.encode() if isinstance(x, str) else x for x in row]


def sorted_rows(rows):
    """Rows as a reply has them: ascending, each once."""
    return tuple(sorted(set(rows), key=row_order))


def listed_columns(table, but=()):
    return " ".join("1." + x for k, x in enumerate(table.columns) if k not in but)


def query_of_key(table, key):
    return "query %s from %s where 1.%s = %d" % (listed_columns(table), table.name, table.columns[table.key], key)


def condition_of(line):
    """What stands behind the first `where` of a statement, with the word; or nothing."""
    words = words_of(line)
    at = next((k for k, w in enumerate(words) if is_key(w, "where")), len(words))
    return "".join(" " + (value_word(str(w)) if is_quoted(w) else w) for w in words[at:])


class Body:
    """The statements of one transaction: add its steps in their order, and take them by `finish`."""

    def __init__(self, catalogue, tables, where):
        self.catalogue, self.tables, self.where = catalogue, tables, where
        self.lines, self.replies, self.writes = [], [], []
        self.own, self.changed, self.step = {}, [], 0
        self.blind = False          # whether a change doesn't tell which rows it met
        self.own_faults = []        # reads of another row than the transaction wrote itself: no order explains them

    def fault(self, what):
        raise BadInput("%s: step %d: %s" % (self.where, self.step, what))

    # What steps have.

    def table(self, name):
        if name not in self.tables:
            self.fault("there is no table %s" % (name,))
        return self.tables[name]

    def value(self, value, kind):
        if kind == "int":
            if type(value) is not int or not LEAST <= value <= GREATEST:
                self.fault("%r is no whole number of 64 bits" % (value,))
        elif type(value) is not str or "\n" in value or len(value.encode()) > MOST_BYTES:
            self.fault("%r is no text of one line and at most %d bytes" % (value, MOST_BYTES))
        return value

    def row(self, table, row):
        if type(row) is not list or len(row) != len(table.columns):
            self.fault("a row of %s has %d values" % (table.name, len(table.columns)))
        return tuple(map(self.value, row, table.kinds))

    def key(self, table, key):
        return self.value(key, "int")

    # Steps.

    def add(self, step):
        self.step += 1
        kinds = [x for x in ("do", "read", "write", "delete") if x in step]
        if len(kinds) != 1:
            self.fault("it has to be one of `do`, `read`, `write` and `delete`")
        getattr(self, "add_" + kinds[0])(step)

    def add_read(self, step):
        table = self.table(step["read"])
        key = self.key(table, step.get("key"))
        row = None if step.get("row") is None else self.row(table, step["row"])
        if row is not None and row[table.key] != key:
            self.fault("the row has another key than %d" % key)
        if (table.name, key) in self.own:
            self.compare_own(table.name, key, row)
        elif meet([(table.name, key, key)], self.changed_by_conditions()):
            self.fault("it reads a row that an `update` or `delete` before it may have changed")
        else:
            self.add_query(query_of_key(table, key), () if row is None else (row,))

    def compare_own(self, name, key, row):
        wrote = self.own[name, key]
        if row != wrote:
            shown = ["no row" if x is None else " ".join(map(value_word, x)) for x in (row, wrote)]
            self.own_faults.append("step %d reads %s %d as %s, and the transaction wrote %s itself" % (self.step, name, key, *shown))

    def add_write(self, step):
        table = self.table(step["write"])
        row = self.row(table, step.get("row"))
        self.write(table, row[table.key], row, step.get("at"))

    def add_delete(self, step):
        table = self.table(step["delete"])
        self.write(table, self.key(table, step.get("key")), None, step.get("at"))

    def write(self, table, key, row, at):
        self.own[table.name, key] = row
        self.writes.append(Write(table.name, key, row, at))

    def changed_by_conditions(self):
        return [x for touched in self.changed for x in touched]

    def add_do(self, step):
        line, statement = step["do"], self.read(step["do"])
        if isinstance(statement, Put):
            table = self.table(statement.relation)
            return self.write(table, statement.row[table.key], statement.row, step.get("at"))
        own = [(name, key, key) for name, key in self.own]
        if meet(touched_by(statement, self.catalogue), own + self.changed_by_conditions()):
            self.fault("it may see what a step before it in its transaction changed, and the judge's statements all see the rows as they were when "
                       "the transaction began; record the rows that it read and wrote instead, by `read`, `write` and `delete`")
        if isinstance(statement, Query):
            return self.add_query(line, self.rows_of(statement, step.get("rows")))
        self.change(statement, line, step)

    def read(self, line):
        """A statement, from its line as a workload has it."""
        words = words_of(line) if type(line) is str and "\n" not in line else None
        if not words or words[0] not in STATEMENTS or not all(map(is_sound, words)):
            self.fault("no statement of a workload: %s" % (line,))
        try:
            return STATEMENTS[words[0]](self.catalogue, words[1:])
        except Broken as broken:
            self.fault("%s: %s" % (broken.rule, line))

    def rows_of(self, query, rows):
        """The rows that a query replied."""
        if type(rows) is not list or any(type(x) is not list or len(x) != len(query.columns) for x in rows):
            self.fault("the query has %d columns; `rows` has to list each row that it replied" % len(query.columns))
        kinds = [self.tables[query.relations[x.part]].kinds[x.place] for x in query.columns]
        return [tuple(map(self.value, row, kinds)) for row in rows]

    def add_query(self, line, rows):
        self.lines.append(line)
        self.replies.append(sorted_rows(rows))

    def change(self, statement, line, step):
        """An `update` or a `delete`. Where the rows that it met are told, they are judged too: as the reply of a query for them."""
        table = self.table(statement.relation)
        self.lines.append(line)
        self.changed.append(touched_by(statement, self.catalogue))
        if step.get("rows") is None:
            self.blind = True
            return
        rows = [self.row(table, x) for x in step["rows"]]
        last = {x.place: (x.adds, x.value) for x in (statement.assigns if isinstance(statement, Update) else ())}
        lost = {column for column, (adds, _) in last.items() if not adds}
        sums = {column: value for column, (adds, value) in last.items() if adds}
        self.add_query("query %s from %s%s" % (listed_columns(table, lost), table.name, condition_of(line)),
                       [tuple(x - sums.get(k, 0) if k in sums else x for k, x in enumerate(row) if k not in lost) for row in rows])
        for row in rows:
            self.writes.append(Write(table.name, row[table.key], row if isinstance(statement, Update) else None, step.get("at")))

    def finish(self):
        """The lines, and what they say; the last write of each row that was written by its key stands behind the others."""
        for (name, key), row in self.own.items():
            table = self.tables[name]
            self.lines.append("put %s %s" % (name, " ".join(map(value_word, row))) if row is not None else
                              "delete %s where 1.%s = %d" % (name, table.columns[table.key], key))
        if len(self.lines) > MOST_STATEMENTS:
            raise BadInput("%s: it has %d statements, and the judge takes %d" % (self.where, len(self.lines), MOST_STATEMENTS))
        return tuple(self.lines), tuple(map(self.read, self.lines))
