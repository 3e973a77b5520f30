"""The messages between sites, and the records of what happens.

READ, WRITE and NULL go through the pipe of their class; the others are answers and questions. Definition:
docs/FORMATS.md, "The messages" and "What happened"; crates/sdd_wire/src/msg.rt, crates/sdd_history/src/record.rt.
"""
from typing import NamedTuple

PIPED = ("READ", "WRITE", "NULL")


class Message(NamedTuple):
    kind: str
    cls: int = None
    time: int = None
    txn: int = 0
    attempt: int = 0
    conds: tuple = ()           # READ: its conditions
    uses: tuple = ()            # READ: what it reads
    changes: tuple = ()         # WRITE: triples of a fragment, a key and a row or None
    by: int = 0                 # REJECT: the class of the write
    write: int = 0              # REJECT: the time of the write
    use: int = 0                # FETCH, VALUES, REDUCE, REDUCED: the number of a use
    column: int = 0             # FETCH, REDUCE
    values: tuple = ()          # VALUES, REDUCE
    counts: tuple = ()          # READY: pairs of a use and how many rows it has; REDUCED: one such pair
    rows: tuple = ()            # ROWS: pairs of a use and a row


class Record(NamedTuple):
    """What is recorded of an act; `event` is the number of its event."""
    kind: str                   # submit, start, arrive, wait, answer, reject, commit, apply, pass, nothing
    txn: int = 0
    attempt: int = 0
    cls: int = 0
    dm: int = 0
    time: int = 0               # start: the timestamp; reject: that of the write; pass
    p2: int = None              # start: the time of P2
    conds: tuple = ()           # wait: those that lack
    uses: tuple = ()            # start
    reply: object = None        # commit
    changes: dict = {}          # commit
    values: int = 0             # commit: how many values and rows were shipped
    rows: int = 0
    event: int = 0
