"""PostgreSQL, by psycopg 3; alone, or with a standby to which transactions go that only read."""
import time

from sdd.judge.engines import MARK, SCHEMA, Lost, Retry, Unknown, driver
from sdd.judge.table_sql import create_table, insert
from sdd.model.files import BadInput

KINDS = {"int": "BIGINT", "text": 'TEXT COLLATE "C"'}
STANDBY_SECONDS = 60


class Engine:
    levels = {"autocommit": None, "read-committed": "READ COMMITTED", "repeatable-read": "REPEATABLE READ", "serializable": "SERIALIZABLE"}
    default = "serializable"
    snapshot = "REPEATABLE READ"                # how a transaction begins that reads all tables at one moment

    def __init__(self, asked):
        self.psycopg = driver("psycopg", "python3-psycopg", "PostgreSQL")
        self.asked, self.address, self.standby = asked, asked.address or "", asked.standby

    def connect(self):
        return Connection(self)

    def opened(self, address):
        try:
            made = self.psycopg.connect(address, autocommit=True)
            made.execute("SET search_path TO " + SCHEMA)
            return made
        except self.psycopg.OperationalError as fault:
            raise BadInput("PostgreSQL: %s" % fault) from None

    def version(self):
        with self.opened(self.address) as one:
            number = one.execute("SHOW server_version").fetchone()[0].split(" ")[0]
        return "PostgreSQL %s%s" % (number, " with a standby" if self.standby else "")

    def prepare(self, catalogue, rows):
        """Makes the tables in a schema of their own; one of this name that something else made is left alone."""
        with self.opened(self.address) as one:
            there = one.execute("SELECT obj_description(oid, 'pg_namespace') FROM pg_namespace WHERE nspname = %s", [SCHEMA]).fetchone()
            if there is not None and there[0] != MARK:
                raise BadInput("PostgreSQL: there is a schema %s which sdd history didn't make" % SCHEMA)
            one.execute("BEGIN")
            one.execute("DROP SCHEMA IF EXISTS %s CASCADE" % SCHEMA)
            one.execute("CREATE SCHEMA %s" % SCHEMA)
            one.execute("COMMENT ON SCHEMA %s IS '%s'" % (SCHEMA, MARK))
            for relation in catalogue.relations:
                one.execute(create_table(relation, KINDS, KINDS["int"]))
                for row in rows[relation.name].values():
                    one.execute(insert(relation, row), row)
            one.execute("COMMIT")
            written = one.execute("SELECT pg_current_wal_flush_lsn()").fetchone()[0]
        if self.standby:
            self.await_standby(written)

    def await_standby(self, written):
        """Waits until the standby has the tables."""
        deadline = time.monotonic() + STANDBY_SECONDS
        with self.opened(self.standby) as one:
            if not one.execute("SELECT pg_is_in_recovery()").fetchone()[0]:
                raise BadInput("PostgreSQL: the server of --standby isn't a standby")
            while not one.execute("SELECT pg_last_wal_replay_lsn() >= %s::pg_lsn", [written]).fetchone()[0]:
                if time.monotonic() > deadline:
                    raise BadInput("PostgreSQL: the standby hasn't got the tables in %d seconds" % STANDBY_SECONDS)
                time.sleep(0.05)


class Connection:
    returns = True

    def __init__(self, engine):
        self.engine, self.level = engine, engine.levels[engine.asked.level]
        self.primary = self.connection = engine.opened(engine.address)
        self.reader = engine.opened(engine.standby) if engine.standby else None

    def carried_out(self, sql, values):
        errors = self.engine.psycopg.errors
        try:
            return self.connection.execute(sql, values)
        except (errors.SerializationFailure, errors.DeadlockDetected) as fault:
            raise Retry(fault.diag.message_primary) from None
        except self.engine.psycopg.OperationalError as fault:
            raise Lost(str(fault)) from None

    def ask(self, sql, values=()):
        cursor = self.carried_out(sql, values)
        return cursor.fetchall() if cursor.description else []

    def change(self, sql, values):
        return self.carried_out(sql, values).rowcount

    def begin(self, reads_alone):
        if self.reader is not None:
            self.connection = self.reader if reads_alone else self.primary
        if self.level is not None:
            level = "REPEATABLE READ READ ONLY" if self.connection is self.reader else self.level
            self.ask("BEGIN ISOLATION LEVEL " + level)

    def commit(self):
        if self.level is not None:
            try:
                self.ask("COMMIT")
            except Lost as fault:
                raise Unknown(str(fault)) from None

    def lose_commit(self):
        """Sends the commit, and is gone before the answer."""
        self.connection.pgconn.send_query(b"COMMIT")
        self.connection.pgconn.flush()
        self.close()
        raise Unknown("the connection was closed behind the commit")

    def rollback(self):
        if self.level is not None:
            self.ask("ROLLBACK")

    def close(self):
        for x in (self.primary, self.reader):
            if x is not None:
                x.close()
