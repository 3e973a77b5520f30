"""Histories of databases that are started here, in a scratch folder: PostgreSQL, MariaDB, SQLite, and a primary with a standby.

    python3 -m unittest discover -s tests/databases         from the clone's folder; some ten minutes

Needed are Debian's packages postgresql, python3-psycopg, mariadb-server and python3-pymysql; what is missing is skipped with a word. The judge is
the installed `sdd1`, or the command in SDD1, or the reference. These tests are no part of the gate.
"""
import os
import sys
import tempfile
import threading
import unittest
import unittest.mock

FOLDER = os.path.dirname(os.path.abspath(__file__))
sys.path[:0] = [FOLDER, os.path.join(FOLDER, "..")]

import sdd_path  # noqa: E402, F401
from insert_over_delete import told  # noqa: E402
from measure_levels import how, judged, workloads  # noqa: E402
from sdd.judge.certify import certify  # noqa: E402
from sdd.judge.history_command import read_files, words_of_script  # noqa: E402
from sdd.judge.history_command import Record, arguments, record_history  # noqa: E402
from sdd.judge.history_file import read_history, write_history  # noqa: E402
from sdd.judge.verdict import YES, Judge  # noqa: E402
from sdd.command import parser  # noqa: E402
from sdd.programs import Program  # noqa: E402
from servers import Mariadb, Postgres  # noqa: E402

SCRIPTS = os.path.join(FOLDER, "..", "..", "examples", "histories")
SEEDS, DRAWN = 2, 51            # 67 histories of each engine, 201 in all
KILLED_AFTER = 60               # attempts


def program():
    return Program(os.environ.get("SDD1"))


class Databases(unittest.TestCase):
    """What the tests of all engines share."""
    engine, server, missing, address = None, None, None, None

    @classmethod
    def setUpClass(cls):
        if cls.engine is None or cls.missing:
            raise unittest.SkipTest(cls.missing or "only its subclasses are tests")
        cls.program = program()
        cls.room = tempfile.TemporaryDirectory(prefix="histories-")
        cls.running = cls.server() if cls.server else None
        if cls.running:
            cls.address = cls.running.__enter__().address

    @classmethod
    def tearDownClass(cls):
        cls.room.cleanup()
        if cls.running:
            cls.running.__exit__()

    def script(self, name, level, **more):
        """What is found of the history of a script at a level."""
        path = os.path.join(SCRIPTS, name + ".sql")
        reader = parser("")
        arguments(reader)
        asked = vars(reader.parse_args(words_of_script(path))) | {"engine": self.engine, "address": self.address, "level": level} | more
        return judged(how(**asked), *read_files([path]), os.path.join(self.room.name, name + ".jsonl"), self.program)

    def assert_anomaly(self, words, found):
        self.assertFalse(found.is_serializable())
        self.assertTrue(found.anomaly.words.startswith(words), found.anomaly.words)
        self.assertTrue(found.refused)
        self.assertNotIn(YES, [said for _, said, _ in found.refused])

    def assert_serializable(self, found, what=""):
        self.assertTrue(found.is_serializable(), (what, found.said, found.cycle, found.anomaly and found.anomaly.words))
        self.assertEqual((YES, YES), (found.strict, found.sessions), what)

    def serializable_all(self, level):
        for name, client, cat, work in workloads(SEEDS, DRAWN, self.room.name):
            with self.subTest(name):
                path = os.path.join(self.room.name, name + ".jsonl")
                self.assert_serializable(judged(how(self.engine, self.address, level, client=client), cat, work, path, self.program), name)


class TestPostgres(Databases):
    engine, server, missing = "postgres", Postgres, Postgres.missing()

    def test_serializable(self):
        self.serializable_all("serializable")

    def test_scripts(self):
        for name, level, words in (("lost_update", "read-committed", "lost update"), ("read_skew", "read-committed", "read skew"),
                                   ("write_skew", "repeatable-read", "write skew"), ("read_only_anomaly", "repeatable-read", "read-only anomaly"),
                                   ("upsert_over_delete", "repeatable-read", "lost update")):
            with self.subTest(name):
                self.assert_anomaly(words, self.script(name, level))
                self.assert_serializable(self.script(name, "serializable"))

    def test_insert_over_delete(self):
        """As docs/ISOLATION.md tells it of PostgreSQL 15."""
        import psycopg
        for way in ("upsert", "insert"):
            self.assertEqual([[(2, 2)], "1 row written", [(2, 2), (2, 7)], "committed", [(2, 7)]], told(psycopg, self.address, "REPEATABLE READ", way))
        for level, way in (("REPEATABLE READ", "update"), ("SERIALIZABLE", "upsert"), ("SERIALIZABLE", "insert"), ("SERIALIZABLE", "update")):
            self.assertIn("could not serialize access", told(psycopg, self.address, level, way)[-2])

    def test_commits_without_answer(self):
        for name, client, cat, work in workloads(1, 0, self.room.name):
            with self.subTest(name):
                found = judged(how(self.engine, self.address, "serializable", client=client, lose=0.2), cat, work,
                               os.path.join(self.room.name, name + ".jsonl"), self.program)
                self.assertTrue(any(x.outcome == "unknown" for x in found.history.transactions))
                self.assert_serializable(found, name)

    def test_schema_of_somebody_else(self):
        import psycopg
        from sdd.model.files import BadInput
        with psycopg.connect(self.address, autocommit=True) as one:
            one.execute("COMMENT ON SCHEMA sdd_history IS 'mine'") if one.execute(
                "SELECT 1 FROM pg_namespace WHERE nspname = 'sdd_history'").fetchone() else one.execute("CREATE SCHEMA sdd_history")
            with self.assertRaisesRegex(BadInput, "which sdd history didn't make"):
                self.script("lost_update", "serializable")
            one.execute("DROP SCHEMA sdd_history CASCADE")


class TestMariadb(Databases):
    engine, server, missing = "mariadb", Mariadb, Mariadb.missing()

    def test_serializable(self):
        self.serializable_all("serializable")

    def test_scripts(self):
        for name, level, words in (("lost_update", "repeatable-read", "lost update"), ("read_skew", "read-committed", "read skew"),
                                   ("write_skew", "snapshot", "write skew"), ("read_only_anomaly", "snapshot", "read-only anomaly")):
            with self.subTest(name):
                self.assert_anomaly(words, self.script(name, level))
                self.assert_serializable(self.script(name, "serializable"))
        self.assert_serializable(self.script("lost_update", "snapshot"))


class TestSqlite(Databases):
    engine = "sqlite"

    def test_serializable(self):
        self.serializable_all("deferred")

    def test_scripts(self):
        self.assert_anomaly("lost update", self.script("lost_update", "autocommit"))
        for name in ("lost_update", "read_skew", "write_skew", "read_only_anomaly", "upsert_over_delete"):
            self.assert_serializable(self.script(name, "deferred"))


class TestFaults(unittest.TestCase):
    """A server that is killed in the midst."""

    def killed(self, server, engine, what):
        with server() as running, tempfile.TemporaryDirectory(prefix="histories-") as room:
            asked = how(engine, running.address, "serializable", sessions=8)
            name, client, cat, work = next(workloads(1, 0, room))
            faults, under_way, add = [], threading.Event(), Record.add

            def count(record, transaction):
                add(record, transaction)
                if len(record.made) == KILLED_AFTER:
                    under_way.set()

            def kill():
                try:
                    under_way.wait(60)
                    running.kill()
                    running.start_again()
                except Exception as fault:      # noqa: BLE001: told below
                    faults.append(fault)
            killer = threading.Thread(target=kill)
            killer.start()
            path = os.path.join(room, "h.jsonl")
            with unittest.mock.patch.object(Record, "add", count):
                write_history(path, *record_history(asked, cat, work))
            killer.join()
            self.assertEqual([], faults)
            history = read_history(path)
            outcomes = [x.outcome for x in history.transactions]
            self.assertIn("aborted", outcomes)
            found = certify(history, Judge(history, program(), room))
            self.assertTrue(found.is_serializable(), (what, found.said, found.cycle))
            return outcomes.count("unknown")

    @unittest.skipIf(Postgres.missing(), Postgres.missing())
    def test_postgres(self):
        self.assertTrue(sum(self.killed(Postgres, "postgres", k) for k in range(5)), "no commit was under way in five kills")

    @unittest.skipIf(Mariadb.missing(), Mariadb.missing())
    def test_mariadb(self):
        self.assertTrue(sum(self.killed(Mariadb, "mariadb", k) for k in range(5)), "no commit was under way in five kills")


@unittest.skipIf(Postgres.missing(), Postgres.missing())
class TestStandby(Databases):
    engine, missing = "postgres", Postgres.missing()

    @classmethod
    def server(cls):
        return Postgres(standby_delay="1s")

    def test_stale(self):
        found = self.script("stale_standby", "serializable", standby=self.running.standby)
        self.assertTrue(found.is_serializable())
        self.assertNotEqual(YES, found.strict)
        self.assertTrue(found.against_sessions.startswith("a session doesn't see what it did"), found.against_sessions)


if __name__ == "__main__":
    unittest.main()
