#!/usr/bin/env python3
"""What PostgreSQL does where a transaction inserts a row anew that it has read, and that another transaction has deleted since.

    tests/databases/insert_over_delete.py [ADDRESS]

ADDRESS is what libpq takes, as "dbname=lesson"; without it a server is started here. For each level and each way to write the row it prints
what the transaction was told. The table is made in a schema of its own, and dropped. docs/ISOLATION.md tells about it.
"""
import contextlib
import os
import sys

sys.path[:0] = [os.path.dirname(os.path.abspath(__file__)), os.path.join(os.path.dirname(os.path.abspath(__file__)), "..")]

import sdd_path  # noqa: E402, F401
from sdd.command import parser, start  # noqa: E402
from sdd.judge.engines import driver  # noqa: E402
from servers import Postgres  # noqa: E402

SCHEMA = "sdd_insert_over_delete"
UPSERT = "INSERT INTO stock VALUES (2, 7) ON CONFLICT (id) DO UPDATE SET amount = excluded.amount"
WAYS = {"upsert": UPSERT, "insert": "INSERT INTO stock VALUES (2, 7)", "update": "UPDATE stock SET amount = 7 WHERE id = 2"}
LEVELS = ("REPEATABLE READ", "SERIALIZABLE")
LOOK = "SELECT id, amount FROM stock ORDER BY id, amount"


def told(psycopg, address, level, way):
    """What the transaction reads first, what becomes of its write, what it reads then, and what is left."""
    with psycopg.connect(address, autocommit=True) as one, psycopg.connect(address, autocommit=True) as other:
        one.execute("DROP SCHEMA IF EXISTS %s CASCADE" % SCHEMA)
        one.execute("CREATE SCHEMA " + SCHEMA)
        for x in (one, other):
            x.execute("SET search_path TO " + SCHEMA)
        one.execute("CREATE TABLE stock (id BIGINT PRIMARY KEY, amount BIGINT)")
        one.execute("INSERT INTO stock VALUES (2, 2)")
        one.execute("BEGIN ISOLATION LEVEL " + level)
        made = [one.execute(LOOK).fetchall()]
        other.execute("BEGIN ISOLATION LEVEL " + level)
        other.execute("DELETE FROM stock WHERE id = 2")
        other.execute("COMMIT")
        try:
            made.append("%d row written" % one.execute(WAYS[way]).rowcount)
            made.append(one.execute(LOOK).fetchall())
            one.execute("COMMIT")
            made.append("committed")
        except psycopg.errors.SerializationFailure as fault:
            made.append(fault.diag.message_primary)
            one.execute("ROLLBACK")
        made.append(one.execute(LOOK).fetchall())
        one.execute("DROP SCHEMA %s CASCADE" % SCHEMA)
        return made


def main():
    asked = parser(__doc__)
    asked.add_argument("address", metavar="ADDRESS", nargs="?")
    asked = asked.parse_args()
    psycopg = driver("psycopg", "python3-psycopg", "PostgreSQL")
    with contextlib.ExitStack() as stack:
        address = asked.address or stack.enter_context(Postgres()).address
        with psycopg.connect(address) as one:
            print("PostgreSQL " + one.execute("SHOW server_version").fetchone()[0])
        for level in LEVELS:
            for way in WAYS:
                print("%s, %s: %s" % (level, way, "; ".join(map(str, told(psycopg, address, level, way)))))


if __name__ == "__main__":
    start(main)
