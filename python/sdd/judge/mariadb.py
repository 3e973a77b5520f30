"""MariaDB, by PyMySQL."""
import getpass

from sdd.judge.engines import MARK, SCHEMA, Lost, Retry, Unknown, driver, words_of_address
from sdd.judge.table_sql import create_table, insert
from sdd.model.files import BadInput

KINDS = {"int": "BIGINT", "text": "VARCHAR(255) CHARACTER SET utf8mb4 COLLATE utf8mb4_nopad_bin"}
SOCKET = "/run/mysqld/mysqld.sock"
TAKEN_BACK = {1213: "deadlock", 1205: "lock wait timeout", 1020: "record has changed since last read"}
GONE = (2006, 2013, 2055, 1053, 1927, 0)


class Engine:
    levels = {"autocommit": None, "read-uncommitted": "READ UNCOMMITTED", "read-committed": "READ COMMITTED", "repeatable-read": "REPEATABLE READ",
              "snapshot": "REPEATABLE READ", "serializable": "SERIALIZABLE"}
    default = "serializable"
    snapshot = "REPEATABLE READ"                # how a transaction begins that reads all tables at one moment

    def __init__(self, asked):
        self.pymysql = driver("pymysql", "python3-pymysql", "MariaDB")
        self.asked = asked
        self.address = {"unix_socket": SOCKET, "user": getpass.getuser()} if not asked.address else words_of_address(asked.address)
        if asked.standby:
            raise BadInput("a standby is supported with PostgreSQL alone")

    def connect(self):
        return Connection(self)

    def opened(self):
        try:
            return self.pymysql.connect(charset="utf8mb4", autocommit=True, **self.address)
        except (self.pymysql.err.OperationalError, TypeError) as fault:
            raise BadInput("MariaDB: %s" % (fault.args[-1],)) from None

    def version(self):
        number = self.opened().get_server_info()
        return "MariaDB " + number.replace("5.5.5-", "").split("-")[0]

    def prepare(self, catalogue, rows):
        """Makes the tables in a database of their own; one of this name that something else made is left alone."""
        one = self.opened()
        with one.cursor() as cursor:
            cursor.execute("SET sql_mode = 'ANSI_QUOTES,STRICT_ALL_TABLES'")
            cursor.execute("SELECT schema_comment FROM information_schema.schemata WHERE schema_name = %s", [SCHEMA])
            there = cursor.fetchone()
            if there is not None and there[0] != MARK:
                raise BadInput("MariaDB: there is a database %s which sdd history didn't make" % SCHEMA)
            cursor.execute("DROP DATABASE IF EXISTS " + SCHEMA)
            cursor.execute("CREATE DATABASE %s COMMENT '%s'" % (SCHEMA, MARK))
            cursor.execute("USE " + SCHEMA)
            for relation in catalogue.relations:
                cursor.execute(create_table(relation, KINDS, KINDS["int"]) + " ENGINE = InnoDB")
                cursor.execute("START TRANSACTION")
                for row in rows[relation.name].values():
                    cursor.execute(insert(relation, row), row)
                cursor.execute("COMMIT")
        one.close()


class Connection:
    returns = False

    def __init__(self, engine):
        self.engine, self.level = engine, engine.levels[engine.asked.level]
        self.connection = engine.opened()
        for sql in ("SET sql_mode = 'ANSI_QUOTES,STRICT_ALL_TABLES'", "SET innodb_lock_wait_timeout = 5", "USE " + SCHEMA):
            self.carried_out(sql, ())
        if engine.asked.level in ("snapshot", "repeatable-read"):
            self.set_snapshots(engine.asked.level == "snapshot")

    def set_snapshots(self, on):
        """Whether REPEATABLE READ refuses to change a row that isn't as it was read; older versions can't."""
        try:
            self.carried_out("SET innodb_snapshot_isolation = %s" % ("ON" if on else "OFF"), ())
        except self.engine.pymysql.err.MySQLError as fault:
            if on:
                raise BadInput("MariaDB: no innodb_snapshot_isolation: %s" % fault.args[-1]) from None

    def carried_out(self, sql, values):
        """The rows, and how many were changed."""
        errors = self.engine.pymysql.err
        try:
            with self.connection.cursor() as cursor:
                cursor.execute(sql, values)
                return list(cursor.fetchall()) if cursor.description else [], cursor.rowcount
        except (errors.OperationalError, errors.InterfaceError) as fault:
            if fault.args[0] in TAKEN_BACK:
                raise Retry(TAKEN_BACK[fault.args[0]]) from None
            if fault.args[0] in GONE:
                raise Lost(str(fault.args[-1])) from None
            raise

    def ask(self, sql, values=()):
        return self.carried_out(sql, values)[0]

    def change(self, sql, values):
        return self.carried_out(sql, values)[1]

    def begin(self, reads_alone):
        if self.level is not None:
            self.ask("SET TRANSACTION ISOLATION LEVEL " + self.level)
            self.ask("START TRANSACTION")

    def commit(self):
        if self.level is not None:
            try:
                self.ask("COMMIT")
            except Lost as fault:
                raise Unknown(str(fault)) from None

    def rollback(self):
        if self.level is not None:
            self.ask("ROLLBACK")

    def close(self):
        try:
            self.connection.close()
        except self.engine.pymysql.err.Error:
            pass                    # it was closed already
