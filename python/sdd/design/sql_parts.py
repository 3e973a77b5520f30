"""The parts of a script of SQL, as sql.py reads it."""
from typing import NamedTuple


class Token(NamedTuple):
    kind: str               # text, number, param, word, sign, end
    text: str
    line: int


class Parameter(NamedTuple):
    name: str
    low: int                # its domain; None where none is reported
    high: int
    choices: tuple = ()     # the values that it may have, where these are listed
    is_skewed: bool = False


class Column(NamedTuple):
    table: str              # or an alias; None where none is reported
    name: str


class Condition(NamedTuple):
    left: Column
    op: str
    right: object           # a Column, a Token of a value or of a parameter


class Statement(NamedTuple):
    kind: str               # select, insert, update, delete
    line: int
    tables: list            # pairs of an alias and a table
    columns: list           # of a select Columns, or "*"; of an insert their names
    values: list            # of an insert tokens; of an update triples of a column, the sign, a token
    conditions: list


class Procedure(NamedTuple):
    name: str
    line: int
    site: str
    parameters: list
    statements: list
    cls: str = None         # the class that it shares with others


class Table(NamedTuple):
    name: str
    line: int
    columns: list           # pairs of a name and a kind
    key: str
    fragments: list         # name, the first key after it (None: no end), copies


class Draw(NamedTuple):
    """Calls that are drawn."""
    count: int
    parts: list             # pairs of a transaction and its part of the calls
    seed: int
    line: int


class Script(NamedTuple):
    tables: dict
    rows: list              # Statements
    procedures: dict
    calls: list             # triples of a name, tokens, the line; and Draws
