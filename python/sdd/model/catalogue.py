"""The catalogue: modules, relations, fragments, copies and classes.

A catalogue is accepted where it breaks no rule, and else its first fault is reported: first its form, table by
table, then the rules over all parts. Definition: docs/FORMATS.md, "The catalogue"; crates/sdd_catread/specs
(`Form`, `Values`) and crates/sdd_catalog/specs/Rules.antt.
"""
import re
from collections.abc import Iterable, Iterator, Sequence
from dataclasses import dataclass, field, replace

from sdd.model.toml import Items, NotToml, Span, Table, Value, read_toml
from sdd.model.words import GREATEST, LEAST, Cause, Fault, Row, is_name

MAX_BYTES = 2**20
LIMITS = {"tm": 16, "dm": 16, "relation": 64, "column": 16, "fragment": 256, "class": 64, "read": 32}
Path = tuple[str | int, ...]        # of a value in a table: names of fields, and places in lists
FIELDS = {"top": ("tms", "dms", "relation", "fragment", "class"), "relation": ("name", "columns", "key"),
          "column": ("name", "kind"), "fragment": ("name", "relation", "from", "to", "copies"),
          "class": ("name", "tm", "reads", "writes"), "read": ("fragment", "at")}


@dataclass
class Relation:
    name: str
    columns: list[tuple[str, str]]      # pairs of a name and a kind, "int" or "text"
    key: str

    @property
    def names(self) -> list[str]:
        return [name for name, _ in self.columns]

    @property
    def key_place(self) -> int:
        return self.names.index(self.key)

    def key_of(self, row: Row) -> int:
        key = row[self.key_place]
        assert isinstance(key, int)
        return key


@dataclass
class Fragment:
    name: str
    relation: str
    low: int
    high: int
    copies: list[int]                   # numbers of data modules

    def has(self, relation: str, key: int) -> bool:
        return self.relation == relation and self.low <= key <= self.high


@dataclass
class Class:
    name: str
    tm: int
    reads: list[tuple[str, int]]        # pairs of a fragment's name and the data module at which it is read
    writes: list[str]                   # names of fragments

    @property
    def site(self) -> str:
        return "T%d" % self.tm


@dataclass
class Catalogue:
    """Everything is known by its name; classes also have numbers from 1, and 0 is that of no class."""
    tms: int = 0
    dms: int = 0
    relations: list[Relation] = field(default_factory=list)
    fragments: list[Fragment] = field(default_factory=list)
    classes: list[Class] = field(default_factory=list)

    def __post_init__(self) -> None:
        self.relation = {r.name: r for r in self.relations}
        self.fragment = {f.name: f for f in self.fragments}
        self.place = {f.name: k for k, f in enumerate(self.fragments)}
        self.of_relation = {r.name: [f for f in self.fragments if f.relation == r.name] for r in self.relations}
        self.reads = [dict(c.reads) for c in self.classes]
        self.number = {"-": 0, **{c.name: k for k, c in enumerate(self.classes, 1)}}

    def class_name(self, number: int) -> str:
        return self.classes[number - 1].name if number else "-"

    def read_at(self, number: int, fragment: str) -> int | None:
        """Where a class reads a fragment, or None; the class 0 reads it at the lowest module with a copy."""
        if number == 0:
            return min(self.fragment[fragment].copies)
        return self.reads[number - 1].get(fragment)

    def fragment_of(self, relation: str, key: int) -> str:
        return next(f.name for f in self.of_relation[relation] if f.low <= key <= f.high)

    def in_order(self, fragments: Iterable[str]) -> list[str]:
        """Names of fragments in the order of the catalogue, each once."""
        return sorted(set(fragments), key=self.place.__getitem__)

    def with_classes(self, classes: list[Class]) -> "Catalogue":
        return replace(self, classes=classes)


def read_catalogue(data: bytes) -> Catalogue:
    """The catalogue of a file's bytes; a Fault tells what is wrong with it, and its cause."""
    if len(data) > MAX_BYTES:
        raise Fault(3, "catalogue: top: TooLong", Cause(0, 0, 0, "it has %d bytes" % len(data)))
    try:
        document = read_toml(data)
    except NotToml as fault:
        line, begin = line_and_column(fault.text, fault.at)
        marked = re.compile(r"\[+[^\]\n]*\]*|[\w.+-]+|").match(fault.text, fault.at)
        width = max(1, len(marked[0])) if marked else 1
        raise Fault(3, "catalogue: top: NotToml", Cause(line, begin, begin + width, fault.what)) from None
    try:
        parts = form_of(document)
        for broken in faults(parts):
            raise broken
    except Broken as broken:
        raise Fault(3, "catalogue: %s: %s" % (broken.place, broken.rule), cause_of(document, broken)) from None
    return parts


class Broken(Exception):
    """The rule that a part breaks; at which place of the part, what is wrong there, and which names there are."""

    def __init__(self, rule: str, place: str, path: Path = (), what: str = "", among: Iterable[str] = ()) -> None:
        super().__init__(rule)
        self.rule, self.place, self.path, self.what, self.among = rule, place, path, what, tuple(among)


# Where a fault is.

def line_and_column(text: str, at: int) -> tuple[int, int]:
    """The line of a place of a text, from 1, and the column there, from 0."""
    return text.count("\n", 0, at) + 1, at - (text.rfind("\n", 0, at) + 1)


def cause_of(document: Table, broken: Broken) -> Cause:
    span = span_of(document, broken.place, broken.path)
    if span is None:
        return Cause(0, 0, 0, broken.what, broken.among)
    line, begin = line_and_column(document.text, span.begin)
    marked = document.text[span.begin:span.end].split("\n")[0].rstrip()
    return Cause(line, begin, begin + len(marked), broken.what, broken.among)


def span_of(document: Table, place: str, path: Path) -> Span | None:
    """Where the value stands to which the path leads from the part; or as near to it as the text has places."""
    part, _, number = place.partition(" ")
    full: Path = (part, int(number) - 1, *path) if number else path
    value: Value = document
    found: Span | None = None
    for step in full:
        if isinstance(value, Table) and step in value:
            found = value.values_at.get(str(step), found)
            value = value[str(step)]
            found = value.head if isinstance(value, Table) and value.head else found
        elif isinstance(value, Table) and isinstance(step, str) and step.startswith("key:"):
            found = value.keys_at.get(step[4:], found)
        elif isinstance(value, Items) and isinstance(step, int) and step < len(value):
            found, value = value.spans[step], value[step]
        else:
            break
    return found


# The form.

def form_of(document: Table) -> Catalogue:
    top = Form(document, "top", "top")
    tms, dms = top.whole("tms"), top.whole("dms")
    relations, fragments, classes = (top.tables(part) for part in ("relation", "fragment", "class"))
    return Catalogue(tms, dms, [relation_in(Form(x, "relation %d" % k, "relation")) for k, x in enumerate(relations, 1)],
                     [fragment_in(Form(x, "fragment %d" % k, "fragment")) for k, x in enumerate(fragments, 1)],
                     [class_in(Form(x, "class %d" % k, "class")) for k, x in enumerate(classes, 1)])


class Form:
    """A table at a place, of which the fields are asked one after the other."""

    def __init__(self, table: Value, place: str, kind: str, path: Path = ()) -> None:
        self.place, self.path = place, path
        if not isinstance(table, Table):
            raise self.broken("WrongKind", (), "a table is wanted here")
        self.table, fields = table, FIELDS[kind]
        for name in table:
            if name not in fields:
                raise self.broken("UnknownField", ("key:" + name,), "%s isn't a field of %s; its fields are %s" % (
                    name, "the file as a whole" if kind == "top" else "a " + kind, ", ".join(fields)), fields)

    def broken(self, rule: str, path: Path, what: str, among: Iterable[str] = ()) -> Broken:
        return Broken(rule, self.place, self.path + path, what, among)

    def value(self, name: str) -> Value:
        if name not in self.table:
            raise self.broken("MissingField", (), "%s is absent; it stands as %s" % (name, EXAMPLES[name]))
        return self.table[name]

    def whole(self, name: str) -> int:
        return self.whole_in(self.value(name), (name,))

    def whole_in(self, value: Value, path: Path) -> int:
        if not isinstance(value, int):
            raise self.broken("WrongKind", path, "this is no whole number")
        if not 0 <= value < 2**32:
            raise self.broken("WrongKind", path, "%d isn't between 0 and 4294967295" % value)
        return value

    def key(self, name: str, absent: int) -> int:
        value = self.table.get(name, absent)
        if not isinstance(value, int):
            raise self.broken("WrongKind", (name,), "%s is no whole number" % name)
        return value

    def name(self, name: str) -> str:
        return self.name_in(self.value(name), (name,))

    def name_in(self, value: Value, path: Path) -> str:
        if not isinstance(value, str):
            raise self.broken("WrongKind", path, "a name is wanted here, between quotes")
        if not is_name(value):
            raise self.broken("WrongKind", path, "\"%s\" isn't spelled as a name: 1 to 32 letters, digits and _, a letter first, no keyword" % value)
        return value

    def items(self, name: str, may_be_absent: bool = False) -> Items:
        if may_be_absent and name not in self.table:
            return Items()
        value = self.value(name)
        if not isinstance(value, Items):
            raise self.broken("WrongKind", (name,), "%s is no array: an array stands in brackets, as %s" % (
                name, "[[%s]]" % name if self.place == "top" else EXAMPLES[name]))
        return value

    def tables(self, name: str) -> Items:
        found = self.items(name, True)
        for k, x in enumerate(found):
            if not isinstance(x, Table):
                raise self.broken("WrongKind", (name, k), "a table is wanted here: [[%s]] begins one" % name)
        return found


EXAMPLES = {"tms": "tms = 1", "dms": "dms = 1", "name": 'name = "n"', "key": 'key = "id"', "kind": 'kind = "int"', "relation": 'relation = "r"',
            "tm": "tm = 1", "fragment": 'fragment = "f"', "at": "at = 1", "copies": "copies = [1]", "columns": 'columns = [{name = "id", kind = "int"}]', "writes": 'writes = ["f"]',
            "reads": 'reads = [{fragment = "f", at = 1}]'}


def column_in(form: Form) -> tuple[str, str]:
    name, kind = form.name("name"), form.value("kind")
    if not isinstance(kind, str) or kind not in ("int", "text"):
        raise form.broken("WrongKind", ("kind",), "the kind of a column is \"int\" or \"text\"", ("int", "text"))
    return name, kind


def relation_in(form: Form) -> Relation:
    name = form.name("name")
    columns = [column_in(Form(x, form.place, "column", ("columns", k))) for k, x in enumerate(form.items("columns"))]
    return Relation(name, columns, form.name("key"))


def fragment_in(form: Form) -> Fragment:
    name, relation = form.name("name"), form.name("relation")
    low, high = form.key("from", LEAST), form.key("to", GREATEST)
    return Fragment(name, relation, low, high, [form.whole_in(x, ("copies", k)) for k, x in enumerate(form.items("copies"))])


def read_in(form: Form) -> tuple[str, int]:
    return form.name("fragment"), form.whole("at")


def class_in(form: Form) -> Class:
    name, tm = form.name("name"), form.whole("tm")
    reads = [read_in(Form(x, form.place, "read", ("reads", k))) for k, x in enumerate(form.items("reads", True))]
    return Class(name, tm, reads, [form.name_in(x, ("writes", k)) for k, x in enumerate(form.items("writes", True))])


# The rules that are broken, in the order in which they are reported.

class Breaks:
    """The rules of one part."""

    def __init__(self, place: str) -> None:
        self.place = place

    def when(self, is_broken: bool, rule: str, path: Path = (), what: str = "", among: Iterable[str] = ()) -> Iterator[Broken]:
        if is_broken:
            yield Broken(rule, self.place, path, what, among)


def faults(parts: Catalogue) -> Iterator[Broken]:
    top = Breaks("top")
    for what, number in (("tm", parts.tms), ("dm", parts.dms)):
        yield from top.when(number == 0, "TooFew " + what, (what + "s",), "there is 1 at least")
        yield from top.when(number > LIMITS[what], "TooMany " + what, (what + "s",), "there are at most %d" % LIMITS[what])
    for k, relation in enumerate(parts.relations):
        yield from relation_faults(Breaks("relation %d" % (k + 1)), parts.relations[:k], relation)
    for k, fragment in enumerate(parts.fragments):
        yield from fragment_faults(Breaks("fragment %d" % (k + 1)), parts, parts.fragments[:k], fragment)
    for k, relation in enumerate(parts.relations):
        yield from range_faults(parts, k + 1, relation)
    for k, cls in enumerate(parts.classes):
        yield from class_faults(Breaks("class %d" % (k + 1)), parts, parts.classes[:k], cls)


def second(items: Sequence[str]) -> int | None:
    """The place of the first item that stands there before, too."""
    return next((k for k, x in enumerate(items) if x in items[:k]), None)


def names(parts: Sequence[Relation | Fragment | Class]) -> list[str]:
    return [x.name for x in parts]


def too_many(what: str) -> str:
    return "there are at most %d" % LIMITS[what]


def relation_faults(breaks: Breaks, before: Sequence[Relation], relation: Relation) -> Iterator[Broken]:
    kinds, own = dict(reversed(relation.columns)), [name for name, _ in relation.columns]      # of two with one name the first
    yield from breaks.when(len(before) >= LIMITS["relation"], "TooMany relation", (), too_many("relation"))
    yield from breaks.when(relation.name in names(before), "DuplicateName", ("name",), "a relation before is called %s" % relation.name)
    yield from breaks.when(len(own) > LIMITS["column"], "TooMany column", ("columns",), too_many("column"))
    again = second(own)
    if again is not None:
        yield from breaks.when(True, "DuplicateName", ("columns", again, "name"), "a column before is called %s" % own[again])
    yield from breaks.when(relation.key not in kinds, "UnknownName", ("key",), "%s is none of its columns" % relation.key, own)
    yield from breaks.when(kinds.get(relation.key) == "text", "BadKey", ("key",), "%s has texts, and a key is a whole number" % relation.key)


def fragment_faults(breaks: Breaks, parts: Catalogue, before: Sequence[Fragment], fragment: Fragment) -> Iterator[Broken]:
    relations = names(parts.relations)
    yield from breaks.when(len(before) >= LIMITS["fragment"], "TooMany fragment", (), too_many("fragment"))
    yield from breaks.when(fragment.name in names(before), "DuplicateName", ("name",), "a fragment before is called %s" % fragment.name)
    yield from breaks.when(fragment.relation not in relations, "UnknownName", ("relation",),
                           "no relation is called %s" % fragment.relation, relations)
    yield from breaks.when(fragment.high < fragment.low, "RangeGap", ("to",), "`to` is less than `from`")
    yield from breaks.when(not fragment.copies, "NoCopy", ("copies",), "it has no copy")
    for k, copy in enumerate(fragment.copies):
        yield from breaks.when(not 1 <= copy <= parts.dms, "UnknownName", ("copies", k), no_module("D", copy, "dms", parts.dms))
        yield from breaks.when(copy in fragment.copies[:k], "DuplicateName", ("copies", k), "D%d has a copy already" % copy)


def no_module(letter: str, number: int, field_: str, most: int) -> str:
    return "%s%d isn't there: %s is %d" % (letter, number, field_, most)


def range_faults(parts: Catalogue, number: int, relation: Relation) -> Iterator[Broken]:
    """The fragments of a relation follow one another from the least key to the greatest."""
    found = sorted((f.low, k, f.high) for k, f in enumerate(parts.fragments, 1) if f.relation == relation.name)
    if not found:
        yield Broken("RangeGap", "relation %d" % number, (), "%s has no fragment" % relation.name)
        return
    end, last = LEAST - 1, 0
    for low, k, high in found:
        breaks = Breaks("fragment %d" % k)
        yield from breaks.when(low <= end, "RangeOverlap", ("from",), "the key %d is in %s too" % (low, name_at(parts, last)) if last else "")
        yield from breaks.when(low > end + 1, "RangeGap", ("from",), gap_before(parts, last, end, low))
        end, last = high, k
    if end < GREATEST:
        yield Broken("RangeGap", "fragment %d" % last, ("to",), "no fragment has the keys from %d on, after the `to` of %s" % (end + 1, name_at(parts, last)))


def name_at(parts: Catalogue, number: int) -> str:
    return parts.fragments[number - 1].name


def gap_before(parts: Catalogue, last: int, end: int, low: int) -> str:
    if not last:
        return "no fragment has the keys below %d" % low
    return "no fragment has the keys %d to %d, after the `to` of %s" % (end + 1, low - 1, name_at(parts, last))


def class_faults(breaks: Breaks, parts: Catalogue, before: Sequence[Class], cls: Class) -> Iterator[Broken]:
    copies, fragments = {f.name: f.copies for f in reversed(parts.fragments)}, names(parts.fragments)
    yield from breaks.when(len(before) >= LIMITS["class"], "TooMany class", (), too_many("class"))
    yield from breaks.when(cls.name in names(before), "DuplicateName", ("name",), "a class before is called %s" % cls.name)
    yield from breaks.when(not 1 <= cls.tm <= parts.tms, "UnknownName", ("tm",), no_module("T", cls.tm, "tms", parts.tms))
    yield from breaks.when(len(cls.reads) > LIMITS["read"], "TooMany read", ("reads",), too_many("read"))
    for k, (fragment, at) in enumerate(cls.reads):
        yield from breaks.when(fragment not in copies, "UnknownName", ("reads", k, "fragment"), "no fragment is called %s" % fragment, fragments)
        yield from breaks.when(not 1 <= at <= parts.dms, "UnknownName", ("reads", k, "at"), no_module("D", at, "dms", parts.dms))
        yield from breaks.when(fragment in [f for f, _ in cls.reads[:k]], "DuplicateName", ("reads", k, "fragment"), "it reads %s already" % fragment)
        yield from breaks.when(at not in copies.get(fragment, []), "ReadsWhereNoCopy", ("reads", k, "at"), "D%d has no copy of %s, which has copies at %s" % (
            at, fragment, ", ".join("D%d" % x for x in copies.get(fragment, []))))
    for k, fragment in enumerate(cls.writes):
        yield from breaks.when(fragment not in copies, "UnknownName", ("writes", k), "no fragment is called %s" % fragment, fragments)
        yield from breaks.when(fragment in cls.writes[:k], "DuplicateName", ("writes", k), "it writes %s already" % fragment)
