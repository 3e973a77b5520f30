"""Has `sdd1 verify` judge orders of a history's transactions; long ones piece by piece."""
import os
import shutil

from sdd.judge.judged_files import MOST_FIRST_ROWS, plain, with_sessions, with_times, write_files
from sdd.judge.recorded import apply
from sdd.model.files import BadInput

PIECE = 1900                # with the transactions that list the rows left a workload has at most 2,048
YES = "yes"


class Judge:
    """Judges orders of one history; the files of each verdict are kept in a folder of its own."""

    def __init__(self, history, program, folder):
        self.history, self.program, self.folder = history, program, folder
        self.calls = 0

    def verify(self, paths):
        """What `sdd1 verify` says: `yes`, or `no K`."""
        self.calls += 1
        return self.program.text(["verify"] + paths).strip()

    def judge_order(self, order):
        """Whether one plain database that runs the transactions in this order gives all replies and the rows left."""
        return self.judge_as(order, plain, "order")

    def judge_sessions(self, order):
        """The same, and whether each transaction stands behind the one before it in its session."""
        return self.judge_as(order, with_sessions, "sessions")

    def judge_times(self, order):
        """The same, and whether what was over before another began stands before it."""
        return self.judge_as(order, with_times, "strict")

    def judge_as(self, order, form, name):
        """Judges it piece by piece: the last transactions of each list all rows, and the next piece begins with these rows."""
        folder, transactions = os.path.join(self.folder, name), form(self.history, order)
        shutil.rmtree(folder, ignore_errors=True)
        tables, numbers = self.history.first_tables(), set()
        starts = range(0, max(len(order), 1), PIECE)
        for at in starts:
            part, first = transactions[at:at + PIECE], {name: dict(rows) for name, rows in tables.items()}
            before = sorted({n for x in part for n in x.asked} & numbers)
            if at != starts[-1]:
                self.go_on(order[at:at + PIECE], tables)
            numbers |= {x.number for x in part}
            piece = os.path.join(folder, "piece%d" % (at // PIECE + 1)) if len(starts) > 1 else folder
            left = self.history.left if at == starts[-1] else tables
            said = self.verify(write_files(piece, self.history.tables, first, part, left, before))
            if said != YES:
                return "piece %d: %s" % (at // PIECE + 1, said) if len(starts) > 1 else said
        return YES

    def go_on(self, part, tables):
        """The rows that a piece leaves, from those that it began with."""
        for k in part:
            apply(tables, self.history.effect(k, tables)[1])
        if sum(map(len, tables.values())) > MOST_FIRST_ROWS:
            raise BadInput("the judge takes %d first rows, and a piece of the history begins with more" % MOST_FIRST_ROWS)
