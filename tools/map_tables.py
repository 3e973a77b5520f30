#!/usr/bin/env python3
"""Writes what MAP's table of crates says of crates.txt: one row a crate, in the order of the list, with the crates that
it names.

    tools/map_tables.py [--check] [--map docs/MAP.md]

The last column, a crate's contract, is written by a person and kept. A crate that has no row gets the first sentence of
its lib.rt or main.rt; a row of a crate that is gone goes. With --check nothing is written: it ends with 1 where the page
would change, and tells the first row that does. MAP's picture of the layers is written too (tools/layers.py --text).
"""
import argparse
import os
import re
import subprocess
import sys

sys.dont_write_bytecode = True
HERE = os.path.dirname(os.path.abspath(__file__))
TOP = os.path.join(HERE, "..")
HEAD = "| crate | names | the one contract to the layer above |\n|---|---|---|\n"


def refuse(text):
    print("map_tables.py: " + text, file=sys.stderr)
    sys.exit(2)


def read(name):
    with open(name, encoding="utf-8") as lines:
        return lines.read()


def crates_of(text):
    """The crates of crates.txt in order, each with the names of its line."""
    for line in text.splitlines():
        line = line.split("#")[0].strip()
        if line:
            name, _, names = line.partition(":")
            yield name.split()[0], names.split()


def first_sentence(crate):
    """What a crate's root file begins with."""
    for root in ("lib.rt", "main.rt"):
        name = os.path.join(TOP, "crates", crate, "src", root)
        if os.path.exists(name):
            said = [line[3:].strip() for line in read(name).splitlines() if line.startswith("//!")]
            return re.split(r"(?<=[.:])\s", " ".join(said))[0].rstrip(".:")
    refuse("crates/%s has no src/lib.rt and no src/main.rt" % crate)


def shown(name, ours):
    """A crate of the repository without its prefix, another library as code."""
    return name.removeprefix("sdd_") if name in ours else "`%s`" % name


def table(text, crates):
    """The table, with the contracts that stand in `text`."""
    said = dict(re.findall(r"^\| `(\w+)` \| [^|]* \| ([^|]*?) (?:\| \w[^|]*)?\|$", text, re.M))
    ours = {crate for crate, _ in crates}
    for crate, names in crates:
        listed = ", ".join(shown(name, ours) for name in names) or "std"
        yield "| `%s` | %s | %s |\n" % (crate, listed, said.get(crate) or first_sentence(crate))


def layers():
    done = subprocess.run([sys.executable, os.path.join(HERE, "layers.py"), "--text"], capture_output=True, text=True, check=True)
    return done.stdout.strip("\n") + "\n"


def replaced(text, begin, end, inside):
    """`text` with what stands between two lines replaced."""
    at = text.find(begin)
    to = text.find(end, at + len(begin))
    if at < 0 or to < 0:
        refuse("the page has no lines %r .. %r" % (begin.strip(), end.strip()))
    return text[: at + len(begin)] + inside + text[to:]


def written(text):
    crates = list(crates_of(read(os.path.join(TOP, "crates.txt"))))
    text = replaced(text, "`tools/layers.py --text` prints the same:\n\n```\n", "```\n", layers())
    return replaced(text, "## The crates\n\n", "\nSome of these are a crate of their own", HEAD + "".join(table(text, crates)))


def main():
    parser = argparse.ArgumentParser(description=__doc__.split("\n")[0])
    parser.add_argument("--check", action="store_true")
    parser.add_argument("--map", default=os.path.join(TOP, "docs", "MAP.md"))
    given = parser.parse_args()
    old = read(given.map)
    new = written(old)
    if given.check:
        for one, two in zip(old.splitlines(), new.splitlines()):
            if one != two:
                print("%s would change, first here:\n%s" % (os.path.basename(given.map), two))
                return 1
        return int(old != new)
    with open(given.map, "w", encoding="utf-8", newline="\n") as out:
        out.write(new)
    return 0


if __name__ == "__main__":
    sys.exit(main())
