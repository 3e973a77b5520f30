"""A connection that runs transactions of a workload, and records what it sent and what was replied."""
import random
import time

from sdd.judge.effect import effect
from sdd.judge.engines import Lost, Retry, Unknown
from sdd.judge.recorded import ABORTED, COMMITTED, UNKNOWN
from sdd.judge.steps import row_order
from sdd.judge.table_sql import (delete_sql, put_sql, query_sql, rows_sql, shown, update_sql, with_listed, with_version)
from sdd.judge.touched import meet, touched_by
from sdd.model.files import BadInput
from sdd.model.spelling import statement_line
from sdd.model.statements import Assign, Column, Compare, Delete, Put, Query, Txn, Update
from sdd.model.words import LEAST

MOST_TRIES = 50
SECONDS_DOWN = 60
NULLS = {"int": LEAST, "text": "NULL, which nobody wrote"}


def stand_apart(transaction, cat):
    """Whether no change of a transaction may see what an earlier one changed; then they can be sent as they are."""
    changed = []
    for s in transaction.statements:
        touched = touched_by(s, cat)
        if isinstance(s, (Update, Delete)) and any(meet(touched, x) for x in changed):
            return False
        if not isinstance(s, Query):
            changed.append(touched)
    return True


class Session:
    """Where `client` is asked, and where a change may see what an earlier one of its transaction changed, the connection reads the rows,
    computes, and writes them by their keys, as programs do that map rows to objects."""

    def __init__(self, number, asked, engine, cat, pace, record, numbers):
        self.number, self.asked, self.engine, self.cat, self.pace, self.record, self.numbers = number, asked, engine, cat, pace, record, numbers
        self.connection = engine.connect()
        self.random = random.Random("%s %s" % (asked.seed, number))

    def run(self, transaction):
        """Runs a transaction, and records each attempt."""
        for attempt in range(1, MOST_TRIES + 1):
            self.steps, self.begin, self.sent = [], self.pace.now(), False
            try:
                self.attempt(transaction, attempt)
                return self.tell(transaction.name, COMMITTED)
            except Retry as fault:
                self.roll_back()
                self.tell(self.record.name_of_attempt(transaction.name, attempt), ABORTED, str(fault))
                self.pace.rest(self.random, attempt)
            except Lost as fault:
                unknown = self.connection.level is None and self.steps      # without a transaction each statement may have been kept
                self.tell(transaction.name, UNKNOWN if unknown else ABORTED, str(fault))
                return self.connect_again()
            except Unknown as fault:
                self.tell(transaction.name, UNKNOWN, str(fault))
                return self.connect_again()
        self.record.given_up.append(transaction.name)

    def roll_back(self):
        try:
            self.connection.rollback()
        except (Retry, Lost):
            pass

    def connect_again(self):
        """Tries to get another connection while the server is down."""
        deadline = self.pace.now() + SECONDS_DOWN
        while True:
            try:
                self.connection = self.engine.connect()
                return
            except BadInput:
                if self.pace.now() > deadline:
                    raise
                time.sleep(0.2)

    def tell(self, name, outcome, reason=""):
        made = {"transaction": name, "outcome": outcome, "session": self.number, "begin": self.begin, "end": self.pace.now(), "steps": self.steps}
        self.record.add(made | ({"reason": reason} if reason else {}))

    def attempt(self, transaction, attempt):
        queries = [s for s in transaction.statements if isinstance(s, Query)]
        changes = [s for s in transaction.statements if not isinstance(s, Query)]
        self.first, self.again, self.name = True, attempt > 1, transaction.name
        self.reads_alone = not changes
        for s in queries:
            self.query(with_listed(self.cat, s))
        if self.asked.client or not stand_apart(transaction, self.cat) or self.connection.level is None and not self.connection.returns:
            self.compute_and_write(changes)
        else:
            for s in changes:
                self.change(s)
        self.pace.step(self.name, self.random, self.again)
        if self.first:
            self.connection.begin(self.reads_alone)
        if self.asked.lose and self.random.random() < self.asked.lose:
            self.connection.lose_commit()
        self.connection.commit()

    def send(self, sql, values, how="ask"):
        """Sends a statement, the first one behind the begin."""
        self.pace.step(self.name, self.random, self.again)
        if self.first:
            self.first, self.begin = False, self.pace.now()
            self.connection.begin(self.reads_alone)
        return getattr(self.connection, how)(sql, values)

    def add(self, sql, values, **step):
        self.steps.append(step | {"at": self.pace.now(), "sql": shown(sql, values)})

    def query(self, s):
        sql, values = query_sql(self.cat, s)
        kinds = [self.cat.relation[s.relations[c.part]].columns[c.place][1] for c in s.columns]
        self.add(sql, values, do=statement_line(self.cat, s), rows=self.told(self.send(sql, values), kinds))

    def told(self, rows, kinds):
        """Rows in their order, each once. An engine that shows what isn't committed may reply NULL in a column that has none: then a value
        stands there that nobody writes."""
        made = {tuple(NULLS[kind] if x is None else x for x, kind in zip(row, kinds)) for row in rows}
        return sorted(made, key=row_order)

    def told_whole(self, rows, name):
        return self.told(rows, [kind for _, kind in self.cat.relation[name].columns])

    # Changes as they are.

    def change(self, s):
        if isinstance(s, Put):
            return self.put(s.relation, s.row + (next(self.numbers),))
        if isinstance(s, Update):
            s = with_version(self.cat, s, next(self.numbers))
        sql, values = update_sql(self.cat, s) if isinstance(s, Update) else delete_sql(self.cat, s)
        if self.connection.returns or isinstance(s, Delete):
            rows = self.send(sql + " RETURNING *", values)
        else:
            self.send(sql, values)
            rows = self.connection.ask(*rows_sql(self.cat, self.those_written(s)))
        self.add(sql, values, do=statement_line(self.cat, s), rows=self.told_whole(rows, s.relation))

    def those_written(self, update):
        """A statement about the rows that an update wrote: by their `v_`, and by their key where it was told."""
        key, version = self.cat.relation[update.relation].key_place, update.assigns[-1]
        by_key = tuple(c for c in update.conds if isinstance(c, Compare) and c.column == Column(0, key))
        return Delete(update.relation, by_key + (Compare(Column(0, version.place), "=", version.value),))

    def put(self, name, row):
        sql, values = put_sql(self.asked.engine, self.cat.relation[name], row)
        self.send(sql, values)
        self.add(sql, values, write=name, row=row)

    # Read, compute, write.

    def compute_and_write(self, changes):
        wanted = {}                                 # relation and key -> whether it is put, and the new row
        for s in changes:
            relation = self.cat.relation[s.relation]
            if isinstance(s, Put):
                wanted[s.relation, relation.key_of(s.row)] = True, s.row
                continue
            for item, row in self.computed(s).items():
                is_put = item in wanted and (wanted[item][0] or wanted[item][1] is None)
                wanted[item] = is_put, row
        for (name, key), (is_put, row) in wanted.items():
            if row is not None and is_put:
                self.put(name, row[:len(self.cat.relation[name].columns) - 1] + (next(self.numbers),))
            else:
                self.write(name, key, row)

    def computed(self, s):
        """What an update or a delete makes of the rows that a query for them finds."""
        relation = self.cat.relation[s.relation]
        everything = Query(tuple(Column(0, k) for k in range(len(relation.columns))), (s.relation,), s.conds)
        sql, values = query_sql(self.cat, everything)
        rows = self.told_whole(self.send(sql, values), s.relation)
        self.add(sql, values, do=statement_line(self.cat, everything), rows=rows)
        return effect(Txn("", 1, (s,)), {s.relation: {relation.key_of(x): x for x in rows}}, self.cat)[1]

    def write(self, name, key, row):
        """Writes or deletes one row; where another transaction has deleted it since, nothing is changed, and that is recorded."""
        relation = self.cat.relation[name]
        this_key = (Compare(Column(0, relation.key_place), "=", key),)
        if row is None:
            s = Delete(name, this_key)
            changed, sql, values = self.changed(*delete_sql(self.cat, s))
            step = {"delete": name, "key": key}
        else:
            row = row[:-1] + (next(self.numbers),)
            s = Update(name, tuple(Assign(k, False, x) for k, x in enumerate(row) if k != relation.key_place), this_key)
            changed, sql, values = self.changed(*update_sql(self.cat, s))
            step = {"write": name, "row": row}
        self.add(sql, values, **(step if changed else {"do": statement_line(self.cat, s), "rows": []}))

    def changed(self, sql, values):
        return self.send(sql, values, "change"), sql, values
