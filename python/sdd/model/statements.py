"""Transactions: their statements, and how the words of a line make one.

A statement is a put, a query, an update or a delete; its words are asked from left to right, each by its place.
Definition: docs/FORMATS.md, "Lines and their places" and the table of places; crates/sdd_script/specs/Statements.antt,
Columns.antt, Values.antt.
"""
import re
from collections.abc import Callable, Sequence
from typing import TYPE_CHECKING, NamedTuple, Union

from sdd.model.words import (OPERATORS, Broken, Row, Scalar, are_free, bound, is_free, is_key, is_name, is_quoted, is_whole, known,
                             looks_like_column, must, number_of)

if TYPE_CHECKING:
    from sdd.model.catalogue import Catalogue, Relation

BOUND = "{} is a keyword or an operator; a name, a number or a text belongs here"


class Column(NamedTuple):
    """A column of a use: the place of the use among the relations behind `from`, and that of the column, from 0."""
    part: int
    place: int


class Compare(NamedTuple):
    column: Column
    op: str
    value: Scalar


class Same(NamedTuple):
    left: Column
    right: Column


class Assign(NamedTuple):
    place: int
    adds: bool
    value: Scalar


Condition = Union[Compare, Same]
Conditions = tuple[Condition, ...]


class Put(NamedTuple):
    relation: str
    row: Row


class Query(NamedTuple):
    columns: tuple[Column, ...]
    relations: tuple[str, ...]
    conds: Conditions


class Update(NamedTuple):
    relation: str
    assigns: tuple[Assign, ...]
    conds: Conditions


class Delete(NamedTuple):
    relation: str
    conds: Conditions


Statement = Union[Put, Query, Update, Delete]


class Txn(NamedTuple):
    name: str
    tm: int
    statements: tuple[Statement, ...]


def relations_of(statement: Statement) -> tuple[str, ...]:
    """The relations that it reads: each is a use."""
    if isinstance(statement, Put):
        return ()
    return statement.relations if isinstance(statement, Query) else (statement.relation,)


# Rows and values.

def value_of(word: str, kind: str | None = None) -> Scalar:
    """The value of a word, of this kind where there is one."""
    if is_quoted(word):
        must("WrongKind", kind != "int", word, "{} is a text, and the column has whole numbers")
        return str(word)
    number = whole_of(word)
    must("WrongKind", kind != "text", word, "{} is a number, and the column has texts, which stand between quotes")
    return number


def whole_of(word: str) -> int:
    """The whole number that a word spells."""
    number = number_of(word)
    if number is None:
        raise Broken("BadNumber", word, misspelled(word))
    return number


def misspelled(word: str) -> str:
    """Why a word is no whole number."""
    if is_quoted(word):
        return "{} is a text, and a whole number is wanted"
    if is_whole(word):
        return "{} has more than 64 bits"
    if re.fullmatch(r"[+-]?[0-9]+", word):
        return "a number has no plus sign, no zeros in front and no -0"
    if re.fullmatch(r"[+-]?[0-9]*[.,][0-9]+", word):
        return "numbers are whole; {} isn't"
    return "a text stands between \" and \", not between apostrophes" if word.startswith("'") else "{} is no number; a text stands between \" and \""


def row_of(cat: "Catalogue", words: Sequence[str]) -> tuple[str, Row]:
    """A relation and a row of it."""
    must("BadLine", words, None, "the relation and its values are missing")
    must("BadLine", is_free(words[0]), words[0], BOUND)
    must("BadLine", are_free(words[1:]), bound(words[1:]), BOUND if words[1:] else "the values are missing")
    relation = relation_named(cat, words[0])
    kinds = [kind for _, kind in relation.columns]
    row = tuple(value_of(w, kinds[k] if k < len(kinds) else None) for k, w in enumerate(words[1:]))
    must("WrongKind", len(row) == len(kinds), words[0], "{} has %d columns (%s), and the line %d values" % (
        len(kinds), ", ".join(name for name, _ in relation.columns), len(row)) if len(row) != len(kinds) else "")
    return relation.name, row


def relation_named(cat: "Catalogue", word: str) -> "Relation":
    return known("UnknownName", None if is_quoted(word) else cat.relation.get(word), word, "no relation is called {}", cat.relation)


# Columns and conditions.

def column_of(cat: "Catalogue", relations: Sequence[str], word: str) -> tuple[Column, str]:
    """The column of a use, and its kind; `relations` are the words behind `from`."""
    must("BadNumber", not is_quoted(word), word, "{} is a text, and a column is wanted, as 1.id")
    number, _, name = word.partition(".")
    must("BadNumber", is_whole(number), word, "{} begins with no number; a column is written with the number of its relation, as 1.id")
    must("UnknownName", number_of(number) is not None and 1 <= int(number) <= len(relations), word,
         "{} is of no relation of this line, which has %d" % len(relations))
    relation = relation_named(cat, relations[int(number) - 1])
    place = next((k for k, (n, _) in enumerate(relation.columns) if n == name), None)
    among = ["%s.%s" % (number, n) for n, _ in relation.columns] if place is None else []
    found = known("UnknownName", place, word, "%s has no column %s" % (relation.name, name), among)
    return Column(int(number) - 1, found), relation.columns[found][1]


def condition_of(cat: "Catalogue", relations: Sequence[str], words: Sequence[str]) -> Condition:
    left, op, right = words
    column, kind = column_of(cat, relations, left)
    if op == "=" and spells_column(right):
        other, other_kind = column_of(cat, relations, right)
        must("WrongKind", kind == other_kind, right, "{} has values of another kind than %s" % left)
        return Same(column, other)
    return Compare(column, str(op), value_of(right, kind))


def spells_column(word: str) -> bool:
    number, _, name = word.partition(".")
    return not is_quoted(word) and is_whole(number) and not number.startswith("-") and is_name(name)


def comparisons_in(words: Sequence[str]) -> list[Sequence[str]]:
    """The words of each condition; where they have another form, the line is bad."""
    found: list[Sequence[str]] = []
    for k in range(0, len(words), 4):
        wanted = "and" if k else "where"
        must("BadLine", is_key(words[k], wanted), words[k], "`%s` belongs here, and {} stands here" % wanted)
        must("BadLine", len(words) >= k + 4, words[-1], "a condition is a column, an operator, and a column or a value; it ends too early")
        left, op, right = words[k + 1:k + 4]
        must("BadLine", looks_like_column(left), left, "{} is no column; a column is written as 1.id")
        must("BadLine", not is_quoted(op) and op in OPERATORS, op, "{} is no operator; these are =, !=, <, <=, > and >=")
        must("BadLine", is_free(right), right, BOUND)
        found.append((left, op, right))
    return found


def cut_at(key: str, words: Sequence[str]) -> tuple[Sequence[str], Sequence[str]]:
    """The words before the first that is this keyword, and those from it on."""
    k = next((k for k, w in enumerate(words) if is_key(w, key)), len(words))
    return words[:k], words[k:]


# Statements.

def put_of(cat: "Catalogue", words: Sequence[str]) -> Put:
    return Put(*row_of(cat, words))


def query_of(cat: "Catalogue", words: Sequence[str]) -> Query:
    columns, behind = cut_at("from", words)
    must("BadLine", behind, None, "`from` and the relations are missing")
    relations, rest = cut_at("where", behind[1:])
    must("BadLine", columns, behind[0], "no column stands before `from`")
    strange = next((x for x in columns if not looks_like_column(x)), None)
    must("BadLine", strange is None, strange, "{} is no column; a column is written as 1.id")
    must("BadLine", are_free(relations), bound(relations), BOUND if relations else "no relation stands behind `from`")
    comparisons = comparisons_in(rest)
    out = tuple(column_of(cat, relations, w)[0] for w in columns)
    found = tuple(relation_named(cat, w).name for w in relations)
    return Query(out, found, tuple(condition_of(cat, relations, c) for c in comparisons))


def update_of(cat: "Catalogue", words: Sequence[str]) -> Update:
    must("BadLine", len(words) >= 2 and is_key(words[1], "set") and is_free(words[0]))
    sets, rest = cut_at("where", words[2:])
    must("BadLine", sets and len(sets) % 3 == 0, sets[-1] if sets else None, "an assignment is a column, = or +=, and a value; it ends too early")
    settings = [sets[k:k + 3] for k in range(0, len(sets), 3)]
    for left, op, right in settings:
        must("BadLine", looks_like_column(left), left, "{} is no column; a column is written as 1.id")
        must("BadLine", not is_quoted(op) and op in ("=", "+="), op, "{} is neither = nor +=")
        must("BadLine", is_free(right), right, BOUND)
    comparisons = comparisons_in(rest)
    relation = relation_named(cat, words[0])
    assigns = tuple(assign_of(cat, relation, s) for s in settings)
    return Update(relation.name, assigns, tuple(condition_of(cat, words[:1], c) for c in comparisons))


def assign_of(cat: "Catalogue", relation: "Relation", words: Sequence[str]) -> Assign:
    left, op, right = words
    column, kind = column_of(cat, [relation.name], left)
    must("KeyChanged", column.place != relation.key_place, left, "{} is the key of %s" % relation.name)
    if op == "=":
        return Assign(column.place, False, value_of(right, kind))
    must("WrongKind", kind == "int", left, "{} has texts, to which nothing is added")
    must("WrongKind", not is_quoted(right), right, "{} is a text, which isn't added")
    return Assign(column.place, True, whole_of(right))


def delete_of(cat: "Catalogue", words: Sequence[str]) -> Delete:
    must("BadLine", words and is_free(words[0]))
    comparisons = comparisons_in(words[1:])
    relation = relation_named(cat, words[0])
    return Delete(relation.name, tuple(condition_of(cat, words[:1], c) for c in comparisons))


STATEMENTS: dict[str, Callable[["Catalogue", Sequence[str]], Statement]] = {
    "put": put_of, "query": query_of, "update": update_of, "delete": delete_of}
