"""TOML 1.1, as far as whether a text is TOML and what its tables are.

A document is a table of whole numbers, texts, lists and tables; what a catalogue never has (floats, dates,
booleans) is read as `Other`. Each table and list knows the places of what it holds, so that a fault can be marked.
Definition: toml.io, v1.1.0; its edges stand in docs/FORMATS.md, "What TOML is".
"""
import datetime
import re
from typing import NamedTuple, Union

MAX_DEPTH = 80
CONTROL = re.compile("[\x00-\x08\x0b-\x1f\x7f]")
BARE_KEY = re.compile("[A-Za-z0-9_-]+")
LONGEST_NUMBER = 64          # letters; 64 bits with underscores have 40, and Python reads no 4,301 digits
NUMBERS = [(re.compile(r"[+-]?(0|[1-9](_?[0-9])*)"), 10), (re.compile("0x[0-9A-Fa-f](_?[0-9A-Fa-f])*"), 16),
           (re.compile("0o[0-7](_?[0-7])*"), 8), (re.compile("0b[01](_?[01])*"), 2)]
FLOAT = re.compile(r"[+-]?((0|[1-9](_?[0-9])*)(\.[0-9](_?[0-9])*)?([eE][+-]?[0-9](_?[0-9])*)?|inf|nan)")
DATE = r"(\d{4})-(\d\d)-(\d\d)"
TIME = r"(\d\d):(\d\d)(?::(\d\d)(?:\.\d+)?)?"
MOMENT = re.compile("(?:%s)(?:[Tt ]%s(?:[Zz]|[+-](\\d\\d):(\\d\\d))?)?|%s" % (DATE, TIME, TIME), re.ASCII)
ESCAPES = {"b": "\b", "t": "\t", "n": "\n", "f": "\f", "r": "\r", "e": "\x1b", '"': '"', "\\": "\\"}


class Span(NamedTuple):
    """A part of the text: where it begins, and where what comes after it does."""
    begin: int
    end: int


class NotToml(Exception):
    """What isn't TOML, and at which place of the text; of bytes that are no text the place is unknown."""

    def __init__(self, what: str, text: str = "", at: int = 0) -> None:
        super().__init__(what)
        self.what, self.text, self.at = what, text, at


class Other:
    """A value that is neither a whole number, nor a text, a list or a table."""


class Items(list["Value"]):
    """A list, with the places of its items."""

    def __init__(self) -> None:
        super().__init__()
        self.spans: list[Span] = []


class Table(dict[str, "Value"]):
    """A table; `made` says by what: a header, a longer header, a dotted key, or inline."""

    def __init__(self) -> None:
        super().__init__()
        self.made = "longer header"
        self.text = ""                              # of the whole document; the root alone has it
        self.head: Span | None = None               # of its header, where it has one
        self.keys_at: dict[str, Span] = {}          # the places of its keys
        self.values_at: dict[str, Span] = {}        # and of their values


class TableList(Items):
    """The tables of an array of tables."""


Value = Union[int, str, Items, Table, Other]


def read_toml(data: bytes) -> Table:
    """The table that the bytes are, or NotToml."""
    try:
        text = data.decode("utf-8")
    except UnicodeDecodeError as fault:
        before = data[:fault.start].decode("utf-8").removeprefix("\ufeff").replace("\r\n", "\n")
        raise NotToml("a byte here isn't UTF-8", before, len(before)) from None
    text = text.removeprefix("\ufeff").replace("\r\n", "\n")
    return Reader(text).document()


class Reader:
    def __init__(self, text: str) -> None:
        self.text, self.at, self.root = text, 0, Table()

    def fault(self, what: str, at: int | None = None) -> NotToml:
        return NotToml(what, self.text, self.at if at is None else at)

    # Small steps.

    def peek(self, n: int = 1) -> str:
        return self.text[self.at:self.at + n]

    def takes(self, what: str) -> bool:
        if self.text.startswith(what, self.at):
            self.at += len(what)
            return True
        return False

    def needs(self, what: str) -> None:
        if not self.takes(what):
            raise self.fault("the line goes on where it should end" if what == "\n" else "%s is missing here" % what)

    def blank(self) -> None:
        while self.peek() in (" ", "\t"):
            self.at += 1

    def comment(self) -> None:
        if self.peek() == "#":
            end = self.text.find("\n", self.at)
            end = len(self.text) if end < 0 else end
            control = CONTROL.search(self.text, self.at, end)
            if control:
                raise self.fault("a comment has no control characters", control.start())
            self.at = end

    def line_end(self) -> None:
        self.blank()
        self.comment()
        if self.at < len(self.text):
            self.needs("\n")

    def blank_lines(self) -> None:
        """Spaces, comments and newlines inside an array or an inline table."""
        while True:
            self.blank()
            self.comment()
            if not self.takes("\n"):
                return

    # The document.

    def document(self) -> Table:
        table = self.root
        table.text = self.text
        while self.at < len(self.text):
            self.blank()
            if self.peek() in ("", "\n", "#"):
                self.line_end()
            elif self.peek() == "[":
                table = self.header()
                self.line_end()
            else:
                self.key_and_value(table, 0)
                self.line_end()
        return self.root

    def header(self) -> Table:
        begin, is_array = self.at, self.peek(2) == "[["
        self.needs("[[" if is_array else "[")
        self.blank()
        *path, last = self.key()
        self.blank()
        self.needs("]]" if is_array else "]")
        table = self.root
        for name in path:
            found = table.setdefault(name, Table())
            found = found[-1] if isinstance(found, TableList) else found
            if not isinstance(found, Table) or found.made == "inline":
                raise self.fault("%s is no table that can be continued" % name, begin)
            table = found
        made = self.next_of(table, last, begin) if is_array else self.table_of(table, last, begin)
        made.head = Span(begin, self.at)
        return made

    def next_of(self, table: Table, name: str, begin: int) -> Table:
        """A further table of an array of tables."""
        tables = table.setdefault(name, TableList())
        if not isinstance(tables, TableList):
            one = isinstance(tables, Table) and tables.made == "header"
            raise self.fault("[%s] above is one table; each of several begins with two brackets, [[%s]]" % (name, name) if one
                             else "%s is there already, and is no array of tables" % name, begin)
        made = Table()
        tables.append(made)
        tables.spans.append(Span(begin, self.at))
        return made

    def table_of(self, table: Table, name: str, begin: int) -> Table:
        made = table.setdefault(name, Table())
        if not isinstance(made, Table) or made.made != "longer header":
            raise self.fault("%s is there already" % name, begin)
        made.made = "header"
        return made

    def key_and_value(self, table: Table, depth: int) -> None:
        begin = self.at
        *path, last = self.key()
        end = self.at
        self.blank()
        self.needs("=")
        self.blank()
        for name in path:
            found = table.setdefault(name, Table())
            if not isinstance(found, Table) or found.made in ("header", "inline"):
                raise self.fault("%s is there already" % name, begin)
            found.made = "dotted key"
            table = found
        if last in table:
            raise self.fault("%s is there already" % last, begin)
        table.keys_at[last], at = Span(begin, begin + len(self.text[begin:end].rstrip(" \t"))), self.at
        table[last] = self.value(depth)
        table.values_at[last] = Span(at, self.at)

    def key(self) -> list[str]:
        begin, parts = self.at, [self.simple_key()]
        self.blank()
        while self.takes("."):
            self.blank()
            parts.append(self.simple_key())
            self.blank()
        if len(parts) > MAX_DEPTH:
            raise self.fault("a key has at most %d parts" % MAX_DEPTH, begin)
        return parts

    def simple_key(self) -> str:
        if self.peek() in ('"', "'"):
            if self.peek(3) in ('"""', "'''"):
                raise self.fault("a key has one quote before and after it")
            return self.string()
        found = BARE_KEY.match(self.text, self.at)
        if not found:
            raise self.fault("a key begins here, and this is none")
        self.at = found.end()
        return found[0]

    # Values.

    def value(self, depth: int) -> Value:
        if self.peek() in ('"', "'"):
            return self.string()
        if self.peek() == "[":
            return self.array(depth + 1)
        if self.peek() == "{":
            return self.inline_table(depth + 1)
        return self.scalar()

    def scalar(self) -> int | Other:
        begin, found = self.at, MOMENT.match(self.text, self.at)
        if found:
            self.at = found.end()
            if not is_moment(found):
                raise self.fault("there is no such date or time", begin)
            return Other()
        found = re.compile(r"[A-Za-z0-9_+.-]+").match(self.text, self.at)
        word = found[0] if found else ""
        self.at += len(word)
        for form, base in NUMBERS:
            if form.fullmatch(word):
                is_long = base == 10 and len(word) > LONGEST_NUMBER
                number = 2**63 if is_long else int(word.replace("_", ""), base)
                if not -2**63 <= number < 2**63:
                    raise self.fault("a number has at most 64 bits", begin)
                return number
        if word in ("true", "false") or FLOAT.fullmatch(word) and ("inf" in word or abs(float(word)) != float("inf")):
            return Other()
        raise self.fault("%s is no value; a text stands between quotes" % word if word else "a value is missing here", begin)

    def array(self, depth: int) -> Items:
        self.needs("[")
        if depth > MAX_DEPTH:
            raise self.fault("arrays and tables are in each other at most %d times" % MAX_DEPTH)
        items = Items()
        self.blank_lines()
        while not self.takes("]"):
            begin = self.at
            items.append(self.value(depth))
            items.spans.append(Span(begin, self.at))
            self.blank_lines()
            if not self.takes(","):
                self.needs("]")
                break
            self.blank_lines()
        return items

    def inline_table(self, depth: int) -> Table:
        self.needs("{")
        if depth > MAX_DEPTH:
            raise self.fault("arrays and tables are in each other at most %d times" % MAX_DEPTH)
        table = Table()
        self.blank_lines()
        while not self.takes("}"):
            self.key_and_value(table, depth)
            self.blank_lines()
            if not self.takes(","):
                self.needs("}")
                break
            self.blank_lines()
        close(table)
        return table

    def string(self) -> str:
        begin, quote = self.at, self.peek()
        is_long = self.peek(3) == quote * 3
        self.needs(quote * 3 if is_long else quote)
        if is_long:
            self.takes("\n")
        text: list[str] = []
        while True:
            if is_long and self.takes(quote * 3):
                for _ in range(2):      # quotes that stand directly before the three that close it
                    if self.takes(quote):
                        text.append(quote)
                return "".join(text)
            if not is_long and self.takes(quote):
                return "".join(text)
            text.append(self.character(quote, is_long, begin))

    def character(self, quote: str, is_long: bool, begin: int) -> str:
        c = self.peek()
        self.at += 1
        if c == "\\" and quote == '"':
            return self.escape(is_long)
        if c == "" or (c == "\n" and not is_long):
            raise self.fault("this text isn't closed", begin)
        if CONTROL.match(c):
            raise self.fault("a text has no control characters but by an escape", self.at - 1)
        return c

    def escape(self, is_long: bool) -> str:
        begin, c = self.at - 1, self.peek()
        self.at += 1
        if c in ESCAPES and c:
            return ESCAPES[c]
        if c in ("x", "u", "U"):
            digits = self.peek({"x": 2, "u": 4, "U": 8}[c])
            self.at += len(digits)
            if not re.fullmatch("[0-9A-Fa-f]{%d}" % {"x": 2, "u": 4, "U": 8}[c], digits):
                raise self.fault("too few digits of 16 stand after \\%s" % c, begin)
            number = int(digits, 16)
            if number > 0x10ffff or 0xd800 <= number < 0xe000:
                raise self.fault("there is no such character", begin)
            return chr(number)
        if is_long and c in (" ", "\t", "\n"):      # the line goes on at its next visible character
            self.at -= 1
            self.blank()
            self.needs("\n")
            while self.peek() in (" ", "\t", "\n"):
                self.at += 1
            return ""
        raise self.fault("there is no such escape", begin)


def close(table: Table) -> None:
    """Nothing can be added to an inline table, nor to what dotted keys made in it."""
    table.made = "inline"
    for value in table.values():
        if isinstance(value, Table):
            close(value)


def is_moment(found: re.Match[str]) -> bool:
    """Whether there is such a date or time."""
    year, month, day, hour, minute, second, off_hour, off_minute, hour2, minute2, second2 = found.groups()
    try:
        if year is not None:
            datetime.date(int(year) or 4, int(month), int(day))
        for h, m, s in ((hour, minute, second), (hour2, minute2, second2), (off_hour, off_minute, None)):
            datetime.time(int(h or 0), int(m or 0), min(int(s or 0), 59) if int(s or 0) <= 60 else 61)
    except ValueError:
        return False
    return True
