"""Drawn histories for tests: what one plain database replies to drawn transactions, and faults that are planted in it."""
import random

import sdd_path  # noqa: F401
from sdd.bench import random_input
from sdd.judge.history_file import FileReader
from sdd.judge.table_sql import with_listed, with_version, with_versions
from sdd.model.spelling import statement_line
from sdd.model.statements import Delete, Put, Query, Update
from sdd.reference.plain import apply, chosen, database_of, effect

SMALL_NUMBERS = 10


def drawn_input(rng, size):
    """A catalogue with the column `v_`, first rows, and transactions whose statements don't see each other."""
    numbers, random_input.NUMBERS = random_input.NUMBERS, random_input.NUMBERS[:SMALL_NUMBERS]
    try:
        cat, work = random_input.workload(rng)
        txns = []
        while len(txns) < size:
            txn = random_input.transaction(rng, cat, "t%d" % (len(txns) + 1), cat.classes)
            changes = [s for s in txn.statements if not isinstance(s, Query)]
            if txn.statements and len(changes) < 2 and all(not isinstance(s, Query) or len(s.relations) < 3 for s in txn.statements):
                txns.append(txn._replace(statements=tuple(sorted(txn.statements, key=lambda s: not isinstance(s, Query)))))
    finally:
        random_input.NUMBERS = numbers
    wide = with_versions(cat)
    return wide, [(name, row + (0,)) for name, row in work.rows], txns


def sent(wide, txn, number):
    """The transaction as `sdd history` sends it."""
    made = []
    for s in txn.statements:
        if isinstance(s, Query):
            made.append(with_listed(wide, s))
        elif isinstance(s, Put):
            made.append(Put(s.relation, s.row + (number,)))
        else:
            made.append(with_version(wide, s, number) if isinstance(s, Update) else s)
    return txn._replace(statements=tuple(made))


def steps_of(wide, database, txn):
    """The steps that a run on this database records."""
    reply, _ = effect(wide, database, txn)
    answers, steps = iter(reply.answers), []
    for s in txn.statements:
        step = {"do": statement_line(wide, s)}
        if isinstance(s, Query):
            step["rows"] = [list(x) for x in next(answers)]
        elif not isinstance(s, Put):
            step["rows"] = [list(row) for _, row in chosen(database, s)] if isinstance(s, Delete) else rows_left(wide, database, s)
        steps.append(step)
    return steps


def rows_left(wide, database, update):
    _, changes = effect(wide, database, type("Txn", (), {"statements": (update,)}))
    return [list(row) for _, row in sorted(changes.items())]


class Drawn:
    """A history: `lines` as a file has them, `order` the names in the order in which one database ran them."""

    def __init__(self, seed, size, timed=True, unknown=0.0):
        rng = random.Random("drawn history %s" % seed)
        self.wide, first, txns = drawn_input(rng, size)
        database = database_of(self.wide, first)
        self.before, self.transactions, self.order = [], [], [x.name for x in txns]
        lines = [{"history": 1}]
        for r in self.wide.relations:
            mine = [list(row) for (name, _), row in sorted(database.items()) if name == r.name]
            lines.append({"table": r.name, "columns": [list(c) for c in r.columns], "key": r.key, "rows": mine})
        self.sent = [sent(self.wide, x, k) for k, x in enumerate(txns, 1)]
        for k, txn in enumerate(self.sent):
            self.before.append(dict(database))
            made = {"transaction": txn.name, "session": rng.randint(1, 4), "steps": steps_of(self.wide, database, txn)}
            if timed:
                made |= {"begin": k - rng.random() * 3, "end": k + 0.5}
                for step in made["steps"]:
                    step["at"] = k
            happens = True
            if rng.random() < unknown:
                made["outcome"], happens = "unknown", rng.random() < 0.5
            if happens:
                apply(database, effect(self.wide, database, txn)[1])
            self.transactions.append(made)
        if timed:
            in_turn(self.transactions)
        left = [{"left": r.name, "rows": [list(row) for (name, _), row in sorted(database.items()) if name == r.name]} for r in self.wide.relations]
        self.lines = lines + self.transactions + left

    def plant_stale_reply(self, rng, back):
        """A transaction gets the replies that it would have got some places earlier; False where none differ."""
        places = list(range(back, len(self.sent)))
        rng.shuffle(places)
        for k in places:
            steps = steps_of(self.wide, self.before[k - back], self.sent[k])
            old = [x.get("rows") for x in self.transactions[k]["steps"]]
            if [x.get("rows") for x in steps] != old and self.transactions[k].get("outcome") is None:
                for mine, stale in zip(self.transactions[k]["steps"], steps):
                    mine.update(stale)
                return self.transactions[k]["transaction"]
        return None

    def history(self):
        reader = FileReader("drawn", "")
        for line in self.lines:
            reader.add(line)
        return reader.history_of_lines()


def in_turn(transactions):
    """Within a session each begins behind the one before it."""
    last = {}
    for x in transactions:
        x["begin"] = max(x["begin"], last.get(x["session"], x["begin"]))
        last[x["session"]] = x["end"]
