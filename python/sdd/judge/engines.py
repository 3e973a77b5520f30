"""The engines that `sdd history` runs, and what all connections share.

An engine has a name, its levels, `connect()`, `prepare(catalogue, rows)`, which makes the tables anew, and `version()`. A connection has
`begin(reads_alone)`, `ask(sql, values)`, which gives the rows, `change(sql, values)`, which gives how many rows were changed, `commit()`,
`rollback()` and `close()`, and tells by `returns` whether an UPDATE can give the rows that it left.
"""
import importlib
import sys

from sdd.model.files import BadInput

SCHEMA, MARK = "sdd_history", "made by sdd history, and dropped by its next run"
ENGINES = {"postgres": "sdd.judge.postgres", "mariadb": "sdd.judge.mariadb", "sqlite": "sdd.judge.sqlite"}


class Retry(Exception):
    """The engine took the transaction back: a conflict, a deadlock, a lock that it didn't get."""


class Lost(Exception):
    """The connection is gone, and the commit wasn't sent."""


class Unknown(Exception):
    """The commit was sent, and no answer came."""


def driver(module, package, engine):
    """The module that talks to an engine; refused in one line where it is missing."""
    try:
        return importlib.import_module(module)
    except ImportError:
        other = "" if sys.executable.startswith("/usr/bin/") else ", for /usr/bin/python3 (this is %s)" % sys.executable
        raise BadInput("%s needs the Python module %s: apt-get install %s%s" % (engine, module, package, other)) from None


def engine_of(asked):
    """The engine that the words of a command ask for."""
    engine = importlib.import_module(ENGINES[asked.engine]).Engine(asked)
    if asked.level is None:
        asked.level = engine.default
    if asked.level not in engine.levels:
        raise BadInput("%s has no level %s; it has %s" % (asked.engine, asked.level, ", ".join(engine.levels)))
    return engine


def words_of_address(address):
    """`host=.. port=..` as a dictionary."""
    words = [x.partition("=") for x in address.split()]
    if any(not sign for _, sign, _ in words):
        raise BadInput("the address has words as host=NAME: %s" % address)
    return {key: int(value) if key == "port" and value.isdigit() else value for key, _, value in words}
