#!/usr/bin/env python3
"""Reads messages, one a line in hexadecimal, and prints for each what tools/compare_messages.py compares.

    tools/messages.py < LINES

That is the kind and the fields as words, ` = ` and the bytes that spell them again; or `bad PLACE`, the place of the
first field that is cut off or can't have its value, and else of the first byte behind the message. The form of messages
is that of docs/FORMATS.md, "The messages". `answers` does the same for other scripts.
"""
import re
import sys


class Bad(Exception):
    """The place where bytes break the spelling of a message."""


class Source:
    def __init__(self, data):
        self.data, self.at = data, 0

    def take(self, size):
        if self.at + size > len(self.data):
            raise Bad(self.at)
        self.at += size
        return self.data[self.at - size:self.at]


# A field has `read`, which gives the words for the bytes of a source, and `spell`, which gives the bytes for words.

class Number:
    def __init__(self, size, signed=False):
        self.size, self.signed = size, signed

    def read(self, source):
        return [str(int.from_bytes(source.take(self.size), "big", signed=self.signed))]

    def spell(self, words):
        return int(words.pop(0)).to_bytes(self.size, "big", signed=self.signed)


class Operator:
    WORDS = ["=", "!=", "<", "<=", ">", ">="]

    def read(self, source):
        byte = source.take(1)[0]
        if not 1 <= byte <= 6:
            raise Bad(source.at - 1)
        return [self.WORDS[byte - 1]]

    def spell(self, words):
        return bytes([self.WORDS.index(words.pop(0)) + 1])


def flag(source):
    byte = source.take(1)[0]
    if byte > 1:
        raise Bad(source.at - 1)
    return byte


class Value:
    def read(self, source):
        if not flag(source):
            return ["i" + I64.read(source)[0]]
        size = source.take(1)[0]
        text = source.take(size)
        try:
            if b"\n" in text:
                raise ValueError
            text.decode("utf-8")
        except ValueError:
            raise Bad(source.at - size) from None
        return ["t" + text.hex()]

    def spell(self, words):
        word = words.pop(0)
        text = bytes.fromhex(word[1:]) if word[0] == "t" else b""
        return b"\1" + bytes([len(text)]) + text if word[0] == "t" else b"\0" + I64.spell([word[1:]])


class Fields:
    def __init__(self, *parts):
        self.parts = parts

    def read(self, source):
        return [word for part in self.parts for word in part.read(source)]

    def spell(self, words):
        return b"".join(part.spell(words) for part in self.parts)


class Listed:
    def __init__(self, item):
        self.item = item

    def read(self, source):
        count = U64.read(source)
        words = list(count)
        for _ in range(int(count[0])):
            words += self.item.read(source)
        return words

    def spell(self, words):
        count = int(words[0])
        return U64.spell(words) + b"".join(self.item.spell(words) for _ in range(count))


class Optional:
    def __init__(self, item):
        self.item = item

    def read(self, source):
        return ["+"] + self.item.read(source) if flag(source) else ["-"]

    def spell(self, words):
        return b"\1" + self.item.spell(words) if words.pop(0) == "+" else b"\0"


U32, U64, I64 = Number(4), Number(8), Number(8, signed=True)
ROW = Listed(Value())
COND = Fields(U32, U64, Listed(U32))
USE = Fields(U32, U32, Listed(U32), Listed(Fields(U32, Operator(), Value())))
CHANGE = Fields(U32, I64, Optional(ROW))
KINDS = [
    ("read", Fields(U64, U32, U32, U64, Listed(COND), Listed(USE))),
    ("ready", Fields(U64, U32, Listed(Fields(U32, U64)))),
    ("reject", Fields(U64, U32, U32, U64)),
    ("fetch", Fields(U64, U32, U32, U32)),
    ("values", Fields(U64, U32, U32, ROW)),
    ("reduce", Fields(U64, U32, U32, U32, ROW)),
    ("reduced", Fields(U64, U32, U32, U64)),
    ("ship", Fields(U64, U32)),
    ("rows", Fields(U64, U32, Listed(Fields(U32, ROW)))),
    ("write", Fields(U64, U32, U32, Listed(CHANGE))),
    ("null", Fields(U32, U64)),
    ("ask", Fields(U32, U64)),
    ("hold", Fields()),
    ("held", Fields(U64)),
    ("done", Fields(U64)),
    ("release", Fields(U64)),
]


def answer(data):
    source = Source(data)
    try:
        kind = source.take(1)[0]
        if not 1 <= kind <= len(KINDS):
            raise Bad(0)
        name, fields = KINDS[kind - 1]
        words = fields.read(source)
        if source.at < len(data):
            raise Bad(source.at)
    except Bad as bad:
        return "bad %s" % bad
    again = bytes([kind]) + fields.spell(list(words))
    return " ".join([name] + words) + " = " + again.hex()


def answers(lines):
    return [answer(bytes.fromhex(line)) for line in lines]


def main():
    if len(sys.argv) > 1:
        print(__doc__.strip() if sys.argv[1] in ("-h", "--help") else "messages.py: it takes no words",
              file=sys.stdout if sys.argv[1] in ("-h", "--help") else sys.stderr)
        return 0 if sys.argv[1] in ("-h", "--help") else 2
    lines = sys.stdin.read().split("\n")
    for number, line in enumerate(lines[:-1] if lines[-1] == "" else lines, 1):
        if not re.fullmatch("([0-9a-f]{2})*", line):
            print("messages.py: line %d: no bytes in hexadecimal" % number, file=sys.stderr)
            return 2
        print(answer(bytes.fromhex(line)))
    return 0


if __name__ == "__main__":
    sys.exit(main())
