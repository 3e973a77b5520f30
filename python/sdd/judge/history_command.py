"""Runs transactions on a database of your own, from several connections at once, and writes what it replied: a history for `sdd judge`.

    sdd history CATALOGUE WORKLOAD --into FILE [--engine postgres|mariadb|sqlite] [--address WORDS] [--level LEVEL] ..
    sdd history SCRIPT.sql --into FILE ..

The transactions are those that the workload submits, or those of a script that `sdd from-sql` takes. They are sent as statements of SQL, the
queries of each first; --times N: N times each, under names of their own. With --client, and where a change may see what an earlier one of its transaction changed, the connection reads the rows,
computes, and writes them by their keys, as programs do that map rows to objects. What the engine takes back is tried anew, 50 times at most.

--address: for PostgreSQL what libpq takes ("host=/run/postgresql dbname=shop"; without it the environment), for MariaDB words as
"unix_socket=/run/mysqld/mysqld.sock user=root", for SQLite a file (without it one that is deleted). The tables are made anew in a schema (or
database) `sdd_history` of their own; nothing else is touched. --level: serializable, repeatable-read, read-committed, autocommit (no transaction
at all); MariaDB also snapshot and read-uncommitted; SQLite has deferred, immediate, read-uncommitted and autocommit.
--standby: the address of a streaming standby of PostgreSQL, to which transactions go that only read.
--turns "a b a b": who sends its next statement (or its commit) when, by the names of the transactions, each on a connection of its own.
A line `-- sdd history WORDS` of a script has words that stand before those of the command, as `--turns` or `--client`.
--lose: how many of the commits are sent without waiting for the answer, as a share (PostgreSQL).
"""
import argparse
import itertools
import os
import shlex
import sys
import tempfile
import threading

from sdd.command import count, parser
from sdd.judge.engines import ENGINES, engine_of
from sdd.judge.history_file import write_history
from sdd.judge.pace import Pace, Turns
from sdd.judge.recorded import ABORTED, COMMITTED, UNKNOWN, Table
from sdd.judge.session import MOST_TRIES, Session
from sdd.judge.table_sql import quoted, with_versions
from sdd.model.files import BadInput, text_of
from sdd.model.reading import catalogue_at, workload_at
from sdd.programs import output_of, own_command

MOST_NAME = 32
OWN_WORDS = "-- sdd history "


class Record:
    """The transactions of a history, as they come."""

    def __init__(self, names):
        self.names, self.made, self.lock = set(names), [], threading.Lock()
        self.given_up = []          # names of those that were taken back each time

    def add(self, transaction):
        with self.lock:
            self.made.append(transaction)

    def name_of_attempt(self, name, attempt):
        """A name for an attempt that was taken back."""
        with self.lock:
            made = "%s_try%d" % (name, attempt)
            if made in self.names or len(made) > MOST_NAME:
                made = next(x for x in ("try%d" % n for n in itertools.count(1)) if x not in self.names)
            self.names.add(made)
            return made


def read_files(paths):
    """The catalogue and the workload of two files, or of a script in SQL."""
    if len(paths) == 1:
        with tempfile.TemporaryDirectory(prefix="history-") as folder:
            output_of(own_command("from-sql", paths[0], "--into", folder), 60)
            return read_files([os.path.join(folder, x) for x in ("catalogue.toml", "workload")])
    cat = catalogue_at(paths[0])
    return cat, workload_at(paths[1], cat)


def transactions_of(work, times):
    """Those that the workload submits, in that order; all of them where it submits none. So many times, under names of their own."""
    once = [work.txns[n - 1] for n in work.submitted()] or list(work.txns)
    made = once if times == 1 else [x._replace(name="%s_%d" % (x.name, n)) for n in range(1, times + 1) for x in once]
    strange = next((x.name for x in made if len(x.name) > MOST_NAME), None)
    if strange is not None or len({x.name for x in made}) < len(made):
        raise BadInput("--times gives a name that is too long or stands there already: %s" % (strange or "see the workload"))
    return made


def record_history(asked, cat, work):
    """The parts of a history's file."""
    engine, wide = engine_of(asked), with_versions(cat)
    rows = {r.name: {} for r in wide.relations}
    for name, row in work.rows:
        rows[name][wide.relation[name].key_of(row)] = row + (0,)
    transactions = transactions_of(work, asked.times)
    try:
        engine.prepare(wide, rows)
        record = Record(x.name for x in transactions)
        run_all(asked, engine, wide, transactions, record)
        left = rows_left(engine, wide)
        about = {"engine": engine.version(), "level": asked.level, "how": "read, compute, write" if asked.client else "SQL", "sessions": asked.sessions}
        about |= {"given_up": record.given_up} if record.given_up else {}
    finally:
        if hasattr(engine, "close"):
            engine.close()
    tables = {r.name: Table(r.name, tuple(c for c, _ in r.columns), tuple(k for _, k in r.columns), r.key_place) for r in wide.relations}
    return about, tables, rows, sorted(record.made, key=lambda x: x["end"]), left


def run_all(asked, engine, wide, transactions, record):
    """Runs the transactions on all sessions; the first fault of one is raised."""
    pace, numbers, faults = pace_of(asked, transactions), itertools.count(1), []
    shares = shares_of(asked, transactions, pace)
    sessions = [Session(k, asked, engine, wide, pace, record, numbers) for k in range(1, len(shares) + 1)]

    def work(session, share):
        try:
            for transaction in share:
                session.run(transaction)
                pace.finish(transaction.name)
                if faults:
                    break
        except Exception as fault:          # noqa: BLE001: raised below
            faults.append(fault)
            pace.finish(transaction.name)
        session.connection.close()
    threads = [threading.Thread(target=work, args=x, daemon=True) for x in zip(sessions, shares)]
    for x in threads:
        x.start()
    if isinstance(pace, Turns):
        pace.conduct()
    for x in threads:
        x.join()
    if faults:
        raise faults[0]


def pace_of(asked, transactions):
    if not asked.turns:
        return Pace(asked.rest)
    words, names = asked.turns.split(), {x.name for x in transactions}
    strange = [x for x in words if x not in names] + sorted(names - set(words))
    if strange:
        raise BadInput("--turns has to name each transaction, and no other: %s" % strange[0])
    return Turns(words)


def shares_of(asked, transactions, pace):
    """The transactions of each session: each its own with turns; else the next one goes to whoever is free."""
    if isinstance(pace, Turns):
        return [[x] for x in sorted(transactions, key=lambda x: pace.words.index(x.name))]
    left, lock = list(reversed(transactions)), threading.Lock()

    def share():
        while True:
            with lock:
                if not left:
                    return
                mine = left.pop()
            yield mine
    return [share() for _ in range(min(asked.sessions, max(len(transactions), 1)))]


def rows_left(engine, wide):
    """The rows of all tables at one moment."""
    keeper = engine.connect()
    keeper.level = engine.snapshot
    keeper.begin(False)
    made = {r.name: sorted(map(tuple, keeper.ask("SELECT * FROM " + quoted(r.name))), key=r.key_of) for r in wide.relations}
    keeper.commit()
    keeper.close()
    return made


def share_word(word):
    made = float(word)
    if not 0 <= made <= 1:
        raise ValueError
    return made


share_word.__name__ = "share"


def arguments(asked):
    asked.add_argument("--engine", default="postgres", choices=list(ENGINES))
    asked.add_argument("--address", metavar="WORDS")
    asked.add_argument("--standby", metavar="WORDS")
    asked.add_argument("--level", metavar="LEVEL")
    asked.add_argument("--sessions", metavar="N", type=count, default=12, help="connections, 12 without it")
    asked.add_argument("--rest", metavar="MS", type=count, default=3, help="the longest rest between statements, in milliseconds")
    asked.add_argument("--times", metavar="N", type=count, default=1, help="how many times each transaction runs")
    asked.add_argument("--client", action=argparse.BooleanOptionalAction, default=False, help="read, compute, write")
    asked.add_argument("--turns", metavar="NAMES")
    asked.add_argument("--lose", metavar="SHARE", type=share_word, default=0)
    asked.add_argument("--seed", metavar="N", type=count, default=1, help="of the rests")


def words_of_script(path):
    """The words that a script has for this command itself."""
    lines = [x.removeprefix(OWN_WORDS) for x in text_of(path).split("\n") if x.startswith(OWN_WORDS)]
    try:
        return [word for line in lines for word in shlex.split(line)]
    except ValueError as fault:
        raise BadInput("%s: %s%s: %s" % (path, OWN_WORDS, lines[0], fault)) from None


def words_asked(words):
    reader = parser(__doc__)
    reader.add_argument("files", metavar="FILE", nargs="+")
    reader.add_argument("--into", metavar="FILE", required=True)
    arguments(reader)
    asked = reader.parse_args(words)
    if len(asked.files) > 2 or 0 in (asked.sessions, asked.times):
        raise BadInput("give a catalogue and a workload, or a script in SQL, and at least one session and one time")
    if asked.lose and asked.engine != "postgres":
        raise BadInput("--lose is supported with PostgreSQL alone")
    return asked


def main():
    asked = words_asked(sys.argv[1:])
    if len(asked.files) == 1:
        asked = words_asked(words_of_script(asked.files[0]) + sys.argv[1:])
    if not os.path.isdir(os.path.dirname(os.path.abspath(asked.into))):
        raise BadInput("%s: there is no such folder" % os.path.dirname(asked.into))
    cat, work = read_files(asked.files)
    parts = record_history(asked, cat, work)
    write_history(asked.into, *parts)
    outcomes = [x["outcome"] for x in parts[3]]
    print("%s, %s: %d committed, %d attempts aborted, %d of unknown outcome" % (
        parts[0]["engine"], parts[0]["level"], *(outcomes.count(x) for x in (COMMITTED, ABORTED, UNKNOWN))))
    if "given_up" in parts[0]:
        print("%d transactions were taken back %d times, and given up" % (len(parts[0]["given_up"]), MOST_TRIES))
