"""SQLite, which comes with Python: a file in WAL mode, or one cache that all connections share and read what isn't committed."""
import os
import shutil
import sqlite3
import tempfile

from sdd.judge.engines import MARK, Retry
from sdd.judge.table_sql import create_table, insert
from sdd.model.files import BadInput

KINDS = {"int": "BIGINT", "text": "TEXT"}
SHARED = "file:sdd_history?mode=memory&cache=shared"


class Engine:
    levels = {"autocommit": None, "read-uncommitted": "BEGIN", "deferred": "BEGIN", "immediate": "BEGIN IMMEDIATE"}
    default = "deferred"
    snapshot = "BEGIN"                 # how a transaction begins that reads all tables at one moment

    def __init__(self, asked):
        self.asked, self.keeper, self.folder = asked, None, None
        self.path = asked.address or os.path.join(self.scratch(), "history.db")
        if asked.standby:
            raise BadInput("a standby is supported with PostgreSQL alone")

    def scratch(self):
        self.folder = tempfile.mkdtemp(prefix="sdd-history-")
        return self.folder

    def connect(self):
        return Connection(self)

    def opened(self):
        try:
            if self.asked.level == "read-uncommitted":
                made = sqlite3.connect(SHARED, uri=True, isolation_level=None, check_same_thread=False)
                made.execute("PRAGMA read_uncommitted = 1")
            else:
                made = sqlite3.connect(self.path, isolation_level=None, check_same_thread=False, timeout=5)
                made.execute("PRAGMA journal_mode = WAL")
                made.execute("PRAGMA synchronous = OFF")
            return made
        except sqlite3.Error as fault:
            raise BadInput("SQLite: %s: %s" % (self.path, fault)) from None

    def version(self):
        return "SQLite %s%s" % (sqlite3.sqlite_version, ", shared cache" if self.asked.level == "read-uncommitted" else ", WAL")

    def prepare(self, catalogue, rows):
        """Makes the file anew; one that something else made is left alone."""
        if self.asked.level != "read-uncommitted" and os.path.exists(self.path):
            self.demand_own()
            for end in ("", "-wal", "-shm"):
                if os.path.exists(self.path + end):
                    os.remove(self.path + end)
        self.keeper = self.opened()         # a shared cache in memory lives as long as a connection
        self.keeper.execute("BEGIN")
        self.keeper.execute("CREATE TABLE sdd_history_mark (mark TEXT)")
        self.keeper.execute("INSERT INTO sdd_history_mark VALUES (?)", [MARK])
        for relation in catalogue.relations:
            self.keeper.execute(create_table(relation, KINDS, "INTEGER"))
            for row in rows[relation.name].values():
                self.keeper.execute(insert(relation, row).replace("%s", "?"), row)
        self.keeper.execute("COMMIT")

    def demand_own(self):
        try:
            mark = sqlite3.connect(self.path).execute("SELECT mark FROM sdd_history_mark").fetchone()
        except sqlite3.Error:
            mark = None
        if mark != (MARK,):
            raise BadInput("%s is there, and sdd history didn't make it" % self.path)

    def close(self):
        if self.keeper is not None:
            self.keeper.close()
        if self.folder is not None:
            shutil.rmtree(self.folder, ignore_errors=True)


class Connection:
    returns = True

    def __init__(self, engine):
        self.level, self.connection = engine.levels[engine.asked.level], engine.opened()

    def carried_out(self, sql, values):
        try:
            cursor = self.connection.execute(sql.replace("%s", "?"), values)
            return cursor.fetchall(), cursor.rowcount
        except sqlite3.OperationalError as fault:
            if "locked" in str(fault):
                raise Retry(str(fault)) from None
            raise

    def ask(self, sql, values=()):
        return self.carried_out(sql, values)[0]

    def change(self, sql, values):
        return self.carried_out(sql, values)[1]

    def begin(self, reads_alone):
        if self.level is not None:
            self.ask(self.level)

    def commit(self):
        if self.level is not None:
            self.ask("COMMIT")

    def rollback(self):
        if self.connection.in_transaction:
            self.connection.execute("ROLLBACK")

    def close(self):
        self.connection.close()
