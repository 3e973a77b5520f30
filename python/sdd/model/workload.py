"""The workload: initial rows, transactions, class lists, and events, in this order.

The first line at fault is reported, with the first rule that it breaks. Definition: docs/FORMATS.md, "The workload";
crates/sdd_script/specs/LineRules.antt, ClassLists.antt, Occurrences.antt, Redeclaring.antt, Walk.antt.
"""
from collections.abc import Callable, Sequence
from typing import NamedTuple

from sdd.model.catalogue import LIMITS, Catalogue, Class, Fragment
from sdd.model.statements import BOUND, STATEMENTS, Put, Query, Statement, Txn, Update, row_of, whole_of
from sdd.model.words import Broken, Row, Word, bound, is_free, is_name, is_quoted, known, must, number_between, number_of, read_lines

MAX_ROWS, MAX_TXNS, MAX_LISTS, MAX_EVENTS = 65_536, 2_048, 8, 262_144
MAX_STATEMENTS, MAX_PARTS, MAX_CONDS, MAX_COLUMNS = 32, 6, 16, 16
MAX_PLACE = 2**20


class Site(NamedTuple):
    """A site; sites stand in the order U, T1, T2 .., D1, D2 .."""
    kind: str
    number: int

    def __str__(self) -> str:
        return self.kind + str(self.number) if self.number else self.kind

    @property
    def rank(self) -> tuple[int, int]:
        return "UTD".index(self.kind), self.number


U = Site("U", 0)


def sites_of(cat: Catalogue) -> list[Site]:
    return [U] + [Site("T", n + 1) for n in range(cat.tms)] + [Site("D", n + 1) for n in range(cat.dms)]


def are_linked(a: Site, b: Site) -> bool:
    return a.kind != b.kind


class Event(NamedTuple):
    """An event: its word, and what stands behind it: a transaction's number, sites, a place or a number of ticks."""
    word: str
    txn: int = 0
    a: Site | None = None
    b: Site | None = None
    n: int = 0

    def words(self, txns: Sequence[Txn]) -> str:
        shown = [txns[self.txn - 1].name] if self.txn else []
        shown += [str(x) for x in (self.a, self.b) if x] + ([str(self.n)] if self.n else [])
        return " ".join([self.word] + shown)


class Workload(NamedTuple):
    rows: list[tuple[str, Row]]     # pairs of a relation's name and a row
    txns: list[Txn]
    lists: list[list[Class]]        # class lists
    events: list[Event]

    def submitted(self) -> list[int]:
        """The numbers of the submitted transactions, in order of submission."""
        return [e.txn for e in self.events if e.word == "submit"]

    def numbers(self) -> dict[str, int]:
        """The number of each transaction, by its name."""
        return {txn.name: n for n, txn in enumerate(self.txns, 1)}

    def all_classes(self, cat: Catalogue) -> Catalogue:
        """The catalogue with the classes of all lists, each with what it reads and writes."""
        return cat.with_classes(cat.classes + [c for classes in self.lists for c in classes])


def read_workload(cat: Catalogue, data: bytes) -> Workload:
    """The workload of a file's bytes; a Fault tells its first fault, and its cause."""
    reader = Reader(cat)
    read_lines(data, reader.take, lambda: reader.place == "ended")
    return Workload(reader.rows, reader.txns, reader.lists, reader.events)


class Reader:
    """What the lines so far have said, and where the next one stands."""

    def __init__(self, cat: Catalogue) -> None:
        self.cat, self.place = cat, "rows"
        self.rows: list[tuple[str, Row]] = []
        self.txns: list[Txn] = []
        self.lists: list[list[Class]] = []
        self.events: list[Event] = []
        self.written = 0                        # rows and puts
        self.txn_names: dict[str, int] = {}     # name -> number
        self.class_names = {c.name for c in cat.classes}
        self.is_submitted: set[int] = set()
        self.down: set[Site] = set()
        self.redeclared = 0
        self.name, self.tm, self.statements = "", 0, list[Statement]()      # of the transaction that is read
        self.classes: list[Class] = []                                      # of the list that is read

    def stands(self, key: str, *places: str) -> None:
        if self.place not in places:
            raise Broken("BadLine", key, MISPLACED.get((self.place, key), MISPLACED.get(self.place, "")))

    def take(self, key: Word, words: list[Word]) -> None:
        if key in STATEMENTS:
            self.statement(key, words)
        elif key in EVENTS:
            self.event(key, words)
        else:
            known("BadLine", LINES.get(key), key, "no line begins with {}", ALL_KEYS)(self, key, words)

    # Rows and transactions.

    def row(self, key: str, words: Sequence[str]) -> None:
        self.stands(key, "rows")
        self.rows.append(row_of(self.cat, words))
        self.one_row_more()

    def one_row_more(self) -> None:
        self.written += 1
        must("TooMany row", self.written <= MAX_ROWS)

    def txn(self, key: str, words: Sequence[str]) -> None:
        self.stands(key, "rows", "between")
        takes(words, 2)
        self.name, self.tm = self.new_name(words[0]), self.module(words[1], "T").number
        must("DuplicateTxn", self.name not in self.txn_names, words[0], "a transaction before is called {}")
        must("TooMany txn", len(self.txn_names) < MAX_TXNS)
        self.txn_names[self.name] = len(self.txn_names) + 1
        self.statements, self.place = [], "inside"

    def statement(self, key: str, words: Sequence[str]) -> None:
        self.stands(key, "inside")
        made = STATEMENTS[key](self.cat, words)
        if isinstance(made, Put):
            self.one_row_more()
        must("TooMany statement", len(self.statements) < MAX_STATEMENTS)
        must("TooMany part", not isinstance(made, Query) or len(made.relations) <= MAX_PARTS)
        must("TooMany cond", isinstance(made, Put) or len(made.conds) <= MAX_CONDS)
        listed = len(made.columns) if isinstance(made, Query) else len(made.assigns) if isinstance(made, Update) else 0
        must("TooMany column", listed <= MAX_COLUMNS)
        self.statements.append(made)

    def done(self, key: str, words: Sequence[str]) -> None:
        takes(words, 0)
        self.stands(key, "inside", "listing")
        if self.place == "inside":
            self.txns.append(Txn(self.name, self.tm, tuple(self.statements)))
            self.place = "between"
        else:
            self.lists.append(self.classes)
            self.place = "declared"

    # Class lists.

    def list(self, key: str, words: Sequence[str]) -> None:
        takes(words, 0)
        self.stands(key, "rows", "between", "declared")
        must("TooMany list", len(self.lists) < MAX_LISTS)
        self.classes, self.place = [], "listing"

    def cls(self, key: str, words: Sequence[str]) -> None:
        self.stands(key, "listing")
        takes(words, 2)
        name, tm = self.new_name(words[0]), self.module(words[1], "T").number
        must("BadClass", name not in self.class_names, words[0], "a class before is called {}")
        must("TooMany class", len(self.class_names) < LIMITS["class"])
        self.class_names.add(name)
        self.classes.append(Class(name, tm, [], []))

    def reads(self, key: str, words: Sequence[str]) -> None:
        self.stands(key, "listing")
        takes(words, 2)
        must("BadLine", self.classes, key, "a `class` comes first")
        must("BadLine", not self.classes[-1].writes, key, "what a class reads stands before what it writes")
        fragment, dm = self.fragment(words[0]), self.module(words[1], "D").number
        cls = self.classes[-1]
        must("BadClass", fragment.name not in dict(cls.reads), words[0], "the class reads {} already")
        must("BadClass", dm in fragment.copies, words[1], "{} has no copy of %s" % fragment.name, ["D%d" % x for x in fragment.copies])
        must("TooMany read", len(cls.reads) < LIMITS["read"])
        cls.reads.append((fragment.name, dm))

    def writes(self, key: str, words: Sequence[str]) -> None:
        self.stands(key, "listing")
        takes(words, 1)
        must("BadLine", self.classes, key, "a `class` comes first")
        fragment = self.fragment(words[0])
        must("BadClass", fragment.name not in self.classes[-1].writes, words[0], "the class writes {} already")
        self.classes[-1].writes.append(fragment.name)

    # Events.

    def event(self, key: str, words: Sequence[str]) -> None:
        self.stands(key, "rows", "between", "declared", "events")
        made = self.event_of(key, words)
        must("SubmittedTwice", key != "submit" or made.txn not in self.is_submitted, words[0] if words else key, "{} is submitted before")
        if key == "redeclare":
            must("BadEvent", self.redeclared < len(self.lists), key, "each `redeclare` needs a `list` of its own before the events")
            must("BadEvent", not self.down, key, "no module may be down")
        must("TooMany event", len(self.events) < MAX_EVENTS)
        self.is_submitted |= {made.txn}
        self.redeclared += key == "redeclare"
        if made.a is not None and key in ("down", "up"):
            self.down = self.down | {made.a} if key == "down" else self.down - {made.a}
        self.events.append(made)
        self.place = "events"

    def event_of(self, key: str, words: Sequence[str]) -> Event:
        takes(words, EVENTS[key])
        if key == "submit":
            known_name = None if is_quoted(words[0]) else self.txn_names.get(words[0])
            return Event("submit", txn=known("UnknownName", known_name, words[0], "no transaction before is called {}", self.txn_names))
        if key in ("deliver", "lose", "repeat", "resend"):
            a, b = self.site(words[0]), self.site(words[1])
            must("BadEvent", are_linked(a, b), words[1], "no link goes from %s to {}: links join U and a T, U and a D, and a T and a D" % words[0])
            return Event(str(key), a=a, b=b, n=self.number(words[2]) if key != "resend" else 0)
        if key == "tick":
            return Event("tick", a=self.module(words[0], "T"), n=self.number(words[1]))
        if key in ("down", "up"):
            return Event(str(key), a=self.module(words[0], "TD"))
        return Event(str(key))

    def end(self, key: str, words: Sequence[str]) -> None:
        takes(words, 0)
        self.stands(key, "rows", "between", "declared", "events")
        self.place = "ended"

    # Words.

    def new_name(self, word: str) -> str:
        return str(known("UnknownName", word if is_name(word) else None, word,
                         "{} is no name: a name has 1 to 32 letters, digits and _, begins with a letter, and is no keyword"))

    def fragment(self, word: str) -> Fragment:
        found = None if is_quoted(word) else self.cat.fragment.get(word)
        return known("UnknownName", found, word, "no fragment is called {}", self.cat.fragment)

    def site(self, word: str) -> Site:
        must("BadEvent", not is_quoted(word), word, NO_SITE)
        if word == "U":
            return U
        most = {"T": self.cat.tms, "D": self.cat.dms}.get(word[0], 0)
        number = number_between(word[1:], 1, most)
        if number is None:
            must("BadEvent", False, word, "{} isn't there: the catalogue has T1 to T%d and D1 to D%d" % (self.cat.tms, self.cat.dms))
        return Site(word[0], number or 0)

    def module(self, word: str, kinds: str) -> Site:
        must("BadEvent", word[:1] not in "UTD" or word[:1] in kinds, word, WRONG_KIND[kinds])
        return self.site(word)

    def number(self, word: str) -> int:
        if number_of(word) is None:
            whole_of(word)
        return known("BadNumber", number_between(word, 1, MAX_PLACE), word, "{} isn't between 1 and %d" % MAX_PLACE)


def takes(words: Sequence[str], count: int) -> None:
    """That so many words stand behind the first one, none of them bound."""
    must("BadLine", len(words) == count, words[count] if len(words) > count else None,
         "%d %s behind the first word, and there %s %d" % (
             count, "word stands" if count == 1 else "words stand", "is" if len(words) == 1 else "are", len(words)) if len(words) != count else "")
    must("BadLine", all(map(is_free, words)), bound(words), BOUND)


NO_SITE = "{} is no site: sites are U, T1, T2 .., D1, D2 .."
WRONG_KIND = {"T": "{} is no transaction module", "D": "{} is no data module",
              "TD": "{} never goes down: a transaction module or a data module does"}
LINES: dict[str, Callable[[Reader, str, Sequence[str]], None]] = {
    "row": Reader.row, "txn": Reader.txn, "done": Reader.done, "list": Reader.list, "class": Reader.cls,
    "reads": Reader.reads, "writes": Reader.writes, "end": Reader.end}
# how many words stand behind the first one
EVENTS = {"submit": 1, "deliver": 3, "lose": 3, "repeat": 3, "resend": 2, "tick": 2, "settle": 0, "redeclare": 0,
          "down": 1, "up": 1}
ALL_KEYS = [*LINES, *STATEMENTS, *EVENTS]
INSIDE = "a statement stands inside a transaction, between `txn NAME Tn` and `done`"
IN_LIST = "{} stands inside a class list, between `list` and `done`"
# why a line may not stand where it does: by the place, or by the place and its first word
MISPLACED: dict[str | tuple[str, str], str] = {
    "inside": "the transaction before isn't closed by `done`", "listing": "the class list before isn't closed by `done`",
    **{(place, key): INSIDE for place in ("rows", "between", "declared", "events") for key in STATEMENTS},
    **{(place, key): IN_LIST for place in ("rows", "between", "declared", "events") for key in ("class", "reads", "writes")},
    **{(place, "row"): "all rows come before the first transaction" for place in ("between", "declared", "events")},
    **{("events", key): "transactions and lists come before the first event" for key in ("txn", "list")},
    **{(place, "done"): "no transaction and no list is open here" for place in ("rows", "between", "declared", "events")},
    ("declared", "txn"): "transactions come before the first class list",
}
