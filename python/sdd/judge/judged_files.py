"""The catalogue, workload and report by which `sdd1 verify` judges an order of a history's transactions.

The last transactions of the report, `final_1` .., list all rows that are left; so what the changes did is judged, and not what was read alone.
Transactions that aren't in the order are in the workload, and not submitted. No class is declared: all transactions count as one class, of
which the judge demands the order of their submission; so they are submitted as the order has them.

What has to stand before what (sessions, times) is judged by the same program, through one relation more: each transaction puts a row with its number
into `over_`, and asks for the rows of those that have to stand before it.
"""
import bisect
import os

from sdd.judge.recorded import NEVER, Table, catalogue_of
from sdd.judge.steps import listed_columns, sorted_rows
from sdd.model.files import write_text
from sdd.model.spelling import catalogue_text, row_words

OVER, MOST_ROWS, MOST_FIRST_ROWS = "over_", 4096, 65536
OVER_TABLE = Table(OVER, ("id",), ("int",), 0)


class Judged:
    """A transaction as the files have it."""

    def __init__(self, name, lines, replies):
        self.name, self.lines, self.replies = name, list(lines), list(replies)
        self.asked, self.number = range(0), None        # of `over_`

    def ask_for(self, low, high):
        """Demands that the numbers from low to high stand in `over_`."""
        self.asked = range(low, high + 1)
        if low <= high:
            self.lines.append("query 1.id from %s where 1.id >= %d and 1.id <= %d" % (OVER, low, high))
            self.replies.append(tuple((n,) for n in self.asked))

    def put_number(self, number):
        self.number = number
        self.lines.append("put %s %d" % (OVER, number))


def plain(history, order):
    """The transactions of an order, as they were recorded."""
    return [Judged(x.name, x.lines, x.replies) for x in (history.done[k] for k in order)]


def with_times(history, order):
    """Each asks for those that were over when it began, but for those for which one of these asks itself.

    An order of which that is judged yes is strict; and as the last transactions list all rows of `over_`, nobody who is known to be over is missing.
    """
    done = history.done
    ended = sorted((k for k in order if done[k].until < NEVER), key=lambda k: done[k].until)
    ranks = {k: n for n, k in enumerate(ended, 1)}
    ends, latest = [done[k].until for k in ended], []
    for k in ended:
        latest.append(max(done[k].begin, latest[-1]) if latest else done[k].begin)
    made = plain(history, order)
    for x, k in zip(made, order):
        high = bisect.bisect_left(ends, done[k].begin)
        x.ask_for((bisect.bisect_left(ends, latest[high - 1]) if high else 0) + 1, high)
        if k in ranks:
            x.put_number(ranks[k])
    return made


def with_sessions(history, order):
    """Each asks for the one before it in its session."""
    made = plain(history, order)
    ranks = {k: n for n, k in enumerate(order, 1)}
    before = {b: a for places in history.sessions().values() for mine in [[k for k in places if k in ranks]] for a, b in zip(mine, mine[1:])}
    for x, k in zip(made, order):
        if k in before:
            x.ask_for(ranks[before[k]], ranks[before[k]])
        x.put_number(ranks[k])
    return made


def audits(tables, left, taken, over):
    """Transactions that list all rows that are left, 4,096 each. `over`: the numbers in `over_`; none where it isn't asked."""
    wanted = [(x, left[x.name]) for x in tables.values() if x.name in left] + ([(OVER_TABLE, {n: (n,) for n in over})] if over else [])
    made = []
    for table, rows in wanted:
        keys, key = sorted(rows), table.columns[table.key]
        for at in range(0, max(len(keys), 1), MOST_ROWS):
            part = keys[at:at + MOST_ROWS]
            bounds = ["1.%s >= %d" % (key, part[0])] if at else []
            bounds += ["1.%s < %d" % (key, keys[at + MOST_ROWS])] if at + MOST_ROWS < len(keys) else []
            text = "query %s from %s%s" % (listed_columns(table), table.name, " where " + " and ".join(bounds) if bounds else "")
            made.append(Judged(free_name(taken, len(made) + 1), [text], [sorted_rows(rows[k] for k in part)]))
    return made


def free_name(taken, number):
    name = "final_%d" % number
    while name in taken:
        name += "_"
    return name


def row_lines(tables):
    return ["row " + row_words(name, rows[key]) for name, rows in tables.items() for key in sorted(rows)]


def reply_lines(x):
    lines = ["reply %s ok" % x.name]
    for k, rows in enumerate(x.replies, 1):
        lines.append("query %d %d" % (k, len(rows)))
        lines += [row_words("row", row) for row in rows]
    return lines


def write_files(folder, tables, first, transactions, left, before=()):
    """Writes the three files, and returns their paths. `first` are the rows that are there before, `left` those after, of the tables of which
    that is told; `before` are numbers that stand in `over_` before."""
    os.makedirs(folder, exist_ok=True)
    over = sorted(set(before) | {x.number for x in transactions if x.number is not None})
    last = audits(tables, left, {x.name for x in transactions}, over)
    lines = row_lines(first) + ["row %s %d" % (OVER, n) for n in before]
    for x in transactions + last:
        lines += ["txn %s T1" % x.name] + x.lines + ["done"]
    lines += ["submit " + x.name for x in transactions + last] + ["end"]
    report = ["order " + " ".join(x.name for x in transactions + last)]
    for x in transactions + last:
        report += reply_lines(x)
    catalogue = catalogue_of(tables | ({OVER: OVER_TABLE} if over else {}))
    texts = {"catalogue.toml": catalogue_text(catalogue), "workload": "\n".join(lines) + "\n", "report": "\n".join(report + ["end"]) + "\n"}
    for name, text in texts.items():
        write_text(os.path.join(folder, name), text)
    return [os.path.join(folder, name) for name in texts]
