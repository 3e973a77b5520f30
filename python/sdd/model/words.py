"""Lines, words, numbers, names and texts, as the files spell them.

A line is words with one space between two; a word is a text between quotes or anything without a space.
Definition: docs/FORMATS.md, "Lines and words"; crates/sdd_words/specs.
"""
import re
from collections.abc import Callable, Iterable, Sequence
from typing import NamedTuple, TypeVar

KEYWORDS = ("from", "where", "and", "set")
OPERATORS = ("=", "!=", "<", "<=", ">", ">=")
LEAST, GREATEST = -2**63, 2**63 - 1
MAX_TEXT_BYTES = 255
MAX_FILE_BYTES = 2**26

Known = TypeVar("Known")
Scalar = int | str          # a value of a row
Row = tuple[Scalar, ...]


class Cause(NamedTuple):
    """What is wrong with a file, as far as its reader knows: where, in words, and which names there are."""
    line: int               # from 1; 0 where it is the file as a whole
    begin: int              # the columns that are at fault, from 0; none where `end` is no greater
    end: int
    what: str
    among: tuple[str, ...] = ()


class Fault(Exception):
    """What ends a command: its status, and the line that standard error tells; of a file also the cause."""

    def __init__(self, status: int, line: str, cause: Cause | None = None) -> None:
        super().__init__(line)
        self.status, self.line, self.cause = status, line, cause


class Word(str):
    """A word of a line, with its place there; of a text, what the text stands for."""
    __slots__ = ("begin", "end")
    begin: int
    end: int

    @classmethod
    def at(cls, text: str, begin: int, end: int) -> "Word":
        made = cls(text)
        made.begin, made.end = begin, end
        return made


class Quoted(Word):
    """A word that is written as a text."""
    __slots__ = ()


class Broken(Exception):
    """The rule that a line breaks; the word that does, what is wrong with it ({} is the word), and the names there are."""

    def __init__(self, rule: str, word: str | None = None, what: str = "", among: Iterable[str] = ()) -> None:
        super().__init__(rule)
        self.rule, self.word, self.what, self.among = rule, word, what, among

    def cause(self, number: int, line: str) -> Cause:
        if line.endswith("\r"):
            return Cause(number, len(line) - 1, len(line), "the line ends with CR LF; save the file with line ends of Unix, LF")
        if not isinstance(self.word, Word):
            return Cause(number, 0, 0, self.what, tuple(self.among))
        begin, end = self.word.begin, self.word.end
        return Cause(number, begin, end, self.what.replace("{}", line[begin:end]), tuple(self.among))


def must(rule: str, holds: object, word: str | None = None, what: str = "", among: Iterable[str] = ()) -> None:
    if not holds:
        raise Broken(rule, word, what, among)


def known(rule: str, value: Known | None, word: str | None = None, what: str = "", among: Iterable[str] = ()) -> Known:
    """The value; where there is none, the rule is broken."""
    if value is None:
        raise Broken(rule, word, what, among)
    return value


def words_of(line: str) -> list[Word] | None:
    """The words of a line, or None where it isn't words with one space between two."""
    words: list[Word] = []
    k = 0
    while True:
        begin = k
        if line[k:k + 1] == '"':
            text, k = quoted_at(line, k + 1)
            if text is None:
                return None
            words.append(Quoted.at(text, begin, k))
        else:
            k = line.find(" ", k)
            k = len(line) if k < 0 else k
            if begin == k:
                return None
            words.append(Word.at(line[begin:k], begin, k))
        if k == len(line):
            return words
        if line[k] != " ":
            return None
        k += 1


def quoted_at(line: str, k: int) -> tuple[str | None, int]:
    """The text whose first character is at place k, and the place behind its closing quote."""
    text: list[str] = []
    while k < len(line):
        if line[k] == '"':
            return "".join(text), k + 1
        if line[k] == "\\":
            k += 1
            if line[k:k + 1] not in ('"', "\\"):
                return None, k
        text.append(line[k])
        k += 1
    return None, k


def is_quoted(word: str) -> bool:
    return isinstance(word, Quoted)


def is_sound(word: str) -> bool:
    return not is_quoted(word) or len(word.encode()) <= MAX_TEXT_BYTES


def is_key(word: str, key: str) -> bool:
    return not is_quoted(word) and word == key


def is_free(word: str) -> bool:
    """Whether the word can stand for a name, a number, a site or a value."""
    return is_quoted(word) or word not in KEYWORDS + OPERATORS + ("+=",)


def are_free(words: Sequence[str]) -> bool:
    return bool(words) and all(map(is_free, words))


def bound(words: Sequence[str]) -> str | None:
    """The first word that is a keyword or an operator."""
    return next((x for x in words if not is_free(x)), None)


def looks_like_column(word: str) -> bool:
    return word.count(".") == 1


def is_name(word: str) -> bool:
    return (not is_quoted(word) and re.fullmatch("[A-Za-z][A-Za-z0-9_]{0,31}", word, re.ASCII) is not None
            and word not in KEYWORDS)


def is_whole(word: str) -> bool:
    """Whether it spells a whole number, of whatever size."""
    return re.fullmatch("0|-?[1-9][0-9]*", word, re.ASCII) is not None


def number_of(word: str) -> int | None:
    """The number of 64 bits that a word spells, or None."""
    if is_quoted(word) or not is_whole(word) or len(word) > 20:
        return None
    return int(word) if LEAST <= int(word) <= GREATEST else None


def number_between(word: str, least: int, most: int) -> int | None:
    number = number_of(word)
    return number if number is not None and least <= number <= most else None


def value_word(value: Scalar) -> str:
    """A value as a file spells it."""
    if isinstance(value, int):
        return str(value)
    return '"' + value.replace("\\", "\\\\").replace('"', '\\"') + '"'


def read_lines(data: bytes, take: Callable[[Word, list[Word]], None], is_ended: Callable[[], bool], reported: str = "workload") -> None:
    """Gives the lines of a file to `take`, and tells the first fault with the number of its line."""
    if len(data) > MAX_FILE_BYTES:
        raise Fault(4, "%s: line 0: TooLong" % reported)
    lines = data.split(b"\n")
    for number, line in enumerate(lines, 1):
        text = line.decode("utf-8", "replace")
        try:
            is_last = number == len(lines)
            if is_ended():
                must("BadLine", is_last and not line, None, "nothing may stand after the line `end`")
                continue
            must("NotUtf8", is_utf8(line), None, "the line has bytes that aren't UTF-8")
            must("NoEnd", not is_last, None, "the file ends, and the line `end` is missing" if not line else "no newline stands after the last line")
            words = known("BadLine", words_of(text))
            unsound = next((x for x in words if not is_sound(x)), None)
            must("BadLine", unsound is None, unsound, "a text has at most %d bytes" % MAX_TEXT_BYTES)
            must("BadLine", not is_quoted(words[0]), words[0], "a line begins with a word, not with a text")
            take(words[0], words[1:])
        except Broken as broken:
            raise Fault(4, "%s: line %d: %s" % (reported, number, broken.rule), broken.cause(number, text)) from None


def is_utf8(line: bytes) -> bool:
    try:
        line.decode("utf-8")
    except UnicodeDecodeError:
        return False
    return True
