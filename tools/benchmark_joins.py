#!/usr/bin/env python3
"""Measures `sdd1 plain` on joins with many choices, few answers or too many, and prints a table.

    tools/benchmark_joins.py --program COMMAND [--into FILE] [--note TEXT] [--runs N] [--seconds N] [--drawn N]

COMMAND is a built `sdd1`. Each line is one query over one relation of rows (id, a, b): seconds of the processor and MB of the
whole call, which reads the rows too, the least of some runs (--runs, 3), and how many rows answer; beside them what SQLite
takes for the same query over the same rows in memory, with an index of each column and its statistics, to the first 4,097
answers (more are too many for a reply). What takes longer than --seconds (30) is ended.

The table goes to standard output; with --into it takes the place of what stands in that file between the lines
`<!-- joins: begin -->` and `<!-- joins: end -->`, with --note above it. The status is 1 where a call takes over a second or
100 MB with up to 4,000 rows, or over 2 s or 250 MB with more.

--drawn N measures N drawn queries over 4,000 rows instead, of two to six uses with equalities anywhere among them, over rows
of several kinds, and prints those that take over half a second.
"""
import multiprocessing
import os
import resource
import sqlite3
import sys
import tempfile
import time
from typing import Callable, NamedTuple

import sdd_path  # noqa: F401
from benchmark import halves, put_table
from measuring import Room
from sdd.bench.dear_joins import drawn, hub, hub_and_back, keys, path, product, query, ring, star, workload
from sdd.bench.drawing import Random
from sdd.command import count, parser, parts_of, start
from sdd.model.files import BadInput, write_text

BEGIN, END = "<!-- joins: begin -->\n", "<!-- joins: end -->\n"
HEAD = ["join", "rows", "values", "listed", "answers", "seconds", "MB", "SQLite: seconds"]
MOST_ANSWERS = 4096


class Join(NamedTuple):
    name: str
    shape: Callable         # of the number of uses: the equalities
    uses: int
    rows: int
    arrows: Callable        # of the number of rows and values
    values: int
    listed: str = ""        # or the key of each use
    more: tuple = ()        # further conditions

    def query(self):
        return query(self.listed or keys(self.uses), self.uses, self.shape(self.uses) + list(self.more))


def of(name, shape, uses, sizes, *listed, more=()):
    return [Join(name, shape, uses, n, drawn, values, x, more) for n, values in sizes for x in listed]


NO_ROW = ("3.id < 0",)


def fork(_):
    """The first two uses leave one value, and the third goes on from the second."""
    return ["1.a = 2.a", "2.b = 3.a"]


def dead_ends(_):
    """Equalities that no rows over a hub meet, though each two of them have many."""
    return ["1.b = 2.a", "2.id = 3.a", "1.id = 4.b", "4.b = 2.a"]


def twice(_):
    return ["1.a = 2.b", "2.b = 1.b"]


JOINS = (
    [Join("ring of %s over a hub" % word, ring, uses, 4000, hub, 0, "1.id") for word, uses in (("three", 3), ("four", 4), ("six", 6))]
    + [Join("ring of three over a hub whose leaves lead back", ring, 3, n, hub_and_back, 0, "1.id") for n in (4000, 65000)]
    + of("ring of six", ring, 6, [(560, 48), (4000, 6)], "")
    + of("ring of six", ring, 6, [(4000, 300), (20000, 800)], "1.a")
    + of("ring of six, 1.id < 1000", ring, 6, [(4000, 300), (20000, 800)], "1.id", more=("1.id < 1000",))
    + of("ring of three", ring, 3, [(4000, 6)], "") + of("ring of three", ring, 3, [(4000, 60)], "1.a")
    + of("path of six", path, 6, [(4000, 6)], "", "1.id 6.id", "1.a") + of("path of six", path, 6, [(4000, 60)], "1.a 6.b")
    + of("path of six, the third use without a row", path, 6, [(4000, 6)], "1.id 6.id", more=NO_ROW)
    + of("star of six", star, 6, [(4000, 6)], "") + of("product of six", product, 6, [(4000, 6)], "")
    + of("path of three", path, 3, [(65000, 300)], "1.id 3.id")
    + of("path of six", path, 6, [(65000, 300)], "", "1.id 6.id", "1.a")
    + of("ring of six", ring, 6, [(65000, 300)], "", "1.id 4.id", "1.a")
    + [Join("1.a = 2.a, 2.b = 3.a over a hub", fork, 3, 4000, hub, 0, "1.id 3.id"),
       Join("1.b = 2.a, 2.id = 3.a, 1.id = 4.b, 4.b = 2.a over a hub", dead_ends, 4, 4000, hub, 0, "2.a 3.b")]
    + of("1.a = 2.b, 2.b = 1.b", twice, 2, [(4000, 2)], "1.id 2.a 2.b"))


def in_sqlite(text, arrows, most, into):
    """Puts the seconds of the processor that SQLite takes, and the number of answers; it is ended where it takes too many."""
    resource.setrlimit(resource.RLIMIT_CPU, (most, most))
    base = sqlite3.connect(":memory:")
    base.execute("create table r (id integer primary key, a integer, b integer)")
    base.executemany("insert into r values (?, ?, ?)", arrows)
    base.executescript("create index r_a on r (a); create index r_b on r (b); analyze;")
    before = time.process_time()
    found = base.execute(text).fetchall()
    into.put((time.process_time() - before, len(found)))


def as_sql(text):
    """The query in SQL: the uses are u1, u2 and so on."""
    listed, rest = text.removeprefix("query ").split(" from ")
    uses, _, conditions = rest.partition(" where ")
    of_use = lambda x: "u" + x if x[0].isdigit() and "." in x else x          # noqa: E731
    named = ", ".join("r u%d" % (k + 1) for k in range(len(uses.split())))
    where = " where " + " ".join(of_use(x) for x in conditions.split()) if conditions else ""
    return "select distinct %s from %s%s limit %d" % (", ".join(of_use(x) for x in listed.split()), named, where, MOST_ANSWERS + 1)


def sqlite_answer(text, arrows, most):
    """The seconds and the number of answers, or None for both where it takes too long."""
    found = multiprocessing.SimpleQueue()
    asked = multiprocessing.Process(target=in_sqlite, args=(as_sql(text), arrows, most, found))
    asked.start()
    asked.join()
    return (None, None) if asked.exitcode else found.get()


def measured(program, text, arrows, asked, runs):
    """What `plain` takes for one query."""
    with tempfile.TemporaryDirectory(prefix="joins-") as folder:
        files = [os.path.join(folder, x) for x in ("catalogue.toml", "workload")]
        catalogue, lines = workload(arrows, [text])
        for name, given in zip(files, (catalogue, lines + ["end"])):
            write_text(name, "".join(x + "\n" for x in given))
        room = Room(folder, asked.seconds)
        got = room.least(program + ["plain"] + files, runs)
        return got, answers_in(room.out)


def answers_in(path):
    """How many rows the reply to one query has."""
    with open(path, encoding="utf-8") as f:
        for line in f:
            words = line.split()
            if words[0] == "query":
                return words[2]
            if words[0] == "reply" and words[2] != "ok":
                return "too many"
    return "-"


def is_dear(rows, got):
    """Whether a call takes more than a query of so many rows should."""
    seconds, megabytes = (1, 100) if rows <= 4000 else (2, 250)
    return bool(got.fault) or got.seconds > seconds or got.megabytes > megabytes


def shown(seconds, most):
    return "over %d" % most if seconds is None else "%.2f" % seconds


def row_of(join, program, asked):
    """The cells of one join, and whether it is dear."""
    arrows = join.arrows(join.rows, join.values)
    got, answers = measured(program, join.query(), arrows, asked, asked.runs)
    if got.fault:
        answers = "-"
    other, found = sqlite_answer(join.query(), arrows, asked.seconds)
    if found is not None and not got.fault and answers != ("too many" if found > MOST_ANSWERS else str(found)):
        raise BadInput("%s: SQLite finds %d answers, and the program %s" % (join.query(), found, answers))
    cells = [join.name, "{:,}".format(join.rows), str(join.values or "-"), join.listed or "key of each", answers,
             got.fault or "%.2f" % got.seconds, "%.0f" % got.megabytes, shown(other, asked.seconds)]
    return cells, is_dear(join.rows, got)


def drawn_arrows(random, n):
    """The name of a kind of rows, and the rows."""
    kind, values = random.draw(6), random.choice([2, 3, 6, 20, 60, 300, 1000, 4000])
    if kind == 0:
        return "hub", hub(n, 0)
    if kind == 1:
        return "hub and back", hub_and_back(n, 0)
    if kind == 2:
        return "chain", [(k, k, k + 1) for k in range(n)]
    if kind == 3:
        return "three hubs", [(k, k % 3, random.draw(values)) if k % 2 else (k, random.draw(values), k % 3) for k in range(n)]
    return "%d values" % values, [(k, random.draw(values), random.draw(values)) for k in range(n)]


def drawn_query(random):
    """A query of two to six uses; mostly each use is tied to one before it."""
    uses, column = random.draw(5) + 2, lambda k: "%d.%s" % (k, random.choice(["a", "b", "a", "b", "id"]))      # noqa: E731
    ties = ["%s = %s" % (column(random.draw(k - 1) + 1), column(k)) for k in range(2, uses + 1) if random.draw(8)]
    for _ in range(random.draw(4)):
        one, other = random.draw(uses) + 1, random.draw(uses) + 1
        ties += ["%s = %s" % (column(one), column(other))] if one != other else []
    if random.draw(3) == 0:
        ties.append("%s < %d" % (column(random.draw(uses) + 1), random.draw(1000)))
    listed = sorted({column(random.draw(uses) + 1) for _ in range(random.draw(3) + 1)})
    return query(" ".join(listed), uses, ties)


def show_drawn(program, asked):
    """Prints each drawn query that takes over half a second; returns whether one is dear."""
    dear, slow, worst = 0, 0, 0.0
    for k in range(asked.drawn):
        random = Random(k + 1)
        kind, arrows = drawn_arrows(random, 4000)
        text = drawn_query(random)
        got, answers = measured(program, text, arrows, asked, 1)
        dear += is_dear(4000, got)
        worst = max(worst, got.seconds)
        if got.seconds > 0.5 or is_dear(4000, got):
            slow += 1
            other, _ = sqlite_answer(text, arrows, asked.seconds)
            print("%d | %s | %s | %s | %s | %.0f MB | SQLite %s s" % (
                k + 1, kind, text, answers, got.fault or "%.2f s" % got.seconds, got.megabytes, shown(other, asked.seconds)), flush=True)
    print("%d queries, %d over half a second, %d over the bounds; the longest took %.2f s" % (asked.drawn, slow, dear, worst))
    return dear


def demanded():
    """What the words ask for."""
    asked = parser(__doc__)
    asked.add_argument("--program", metavar="COMMAND", required=True, help="a built `sdd1`")
    asked.add_argument("--into", metavar="FILE", help="a file with a table that is replaced")
    asked.add_argument("--note", metavar="TEXT", default="", help="what is said above the table")
    asked.add_argument("--runs", metavar="N", type=count, default=3, help="how often each call is timed")
    asked.add_argument("--seconds", metavar="N", type=count, default=30, help="the most that a call may take")
    asked.add_argument("--drawn", metavar="N", type=count, default=0, help="so many drawn queries in place of the table")
    asked = asked.parse_args()
    if 0 in (asked.runs, asked.seconds):
        raise BadInput("--runs and --seconds are 1 or more")
    return asked


def main():
    asked = demanded()
    program = parts_of(asked.program)
    if asked.drawn:
        return 1 if show_drawn(program, asked) else 0
    if asked.into:
        halves(asked.into, BEGIN, END)
    rows, dear = [HEAD], 0
    for join in JOINS:
        cells, more = row_of(join, program, asked)
        rows.append(cells)
        dear += more
        print(" | ".join(cells), file=sys.stderr)
    put_table(rows, program, asked, BEGIN, END)
    return 1 if dear else 0


if __name__ == "__main__":
    start(main)
