#!/usr/bin/env python3
"""Counts the paths between the crates of crates.txt.

    tools/crate_paths.py [--crates FILE] [--top NAME] [--most N] [--list]

The kit sums a crate's files anew along each path that leads to it, so the time of a run grows with the paths. Prints
how many lead down from the program (--top, sdd1 where it isn't given) and how many from all crates together; with
--list also how many lead down from each crate, most first, and for each of its direct names how many fewer there
would be without it. A path is a way of one step or more from a crate to one that it names, and on. Ends with status 1
where all crates together have more than N paths (--most).
"""
import argparse
import functools
import os
import sys

sys.dont_write_bytecode = True
HERE = os.path.dirname(os.path.abspath(__file__))


def refuse(text):
    print("crate_paths.py: " + text, file=sys.stderr)
    sys.exit(2)


def read_crates(name):
    """For each crate of the repository the crates of it that its line names, lowest first."""
    try:
        with open(name, encoding="utf-8") as lines:
            text = lines.read()
    except (OSError, UnicodeDecodeError) as error:
        refuse("can't read %s: %s" % (name, error))
    names = {}
    for number, line in enumerate(text.splitlines(), 1):
        line = line.split("#")[0].strip()
        if not line:
            continue
        crate, colon, rest = line.partition(":")
        if not colon or not crate.split():
            refuse("%s, line %d: a crate's name and a colon are missing" % (name, number))
        names[crate.split()[0]] = rest.split()
    return {crate: [n for n in named if n in names] for crate, named in names.items()}


def count_paths(names):
    """For each crate how many paths lead down from it."""

    @functools.cache
    def paths(crate):
        return sum(1 + paths(n) for n in names[crate])

    below = set()
    for crate, named in names.items():
        late = [n for n in named if n not in below]
        if late:
            refuse("%s names %s, which doesn't stand above it" % (crate, late[0]))
        below.add(crate)
    return {crate: paths(crate) for crate in names}


def without(names, crate, name):
    """How many paths all crates together have where one line lacks one name."""
    fewer = dict(names)
    fewer[crate] = [n for n in names[crate] if n != name]
    return sum(count_paths(fewer).values())


def main():
    parser = argparse.ArgumentParser(description=__doc__, formatter_class=argparse.RawDescriptionHelpFormatter)
    parser.add_argument("--crates", default=os.path.join(HERE, "..", "crates.txt"), metavar="FILE")
    parser.add_argument("--top", default="sdd1", metavar="NAME")
    parser.add_argument("--most", type=int, metavar="N")
    parser.add_argument("--list", action="store_true")
    options = parser.parse_args()
    names = read_crates(options.crates)
    if options.top not in names:
        refuse("no line of %s is of the crate %s" % (options.crates, options.top))
    counts = count_paths(names)
    whole = sum(counts.values())
    print("%d paths lead down from %s, %d from all crates together" % (counts[options.top], options.top, whole))
    if options.list:
        for crate in sorted(counts, key=counts.get, reverse=True):
            saved = ["%s %d" % (n, whole - without(names, crate, n)) for n in names[crate]]
            print("%d %s: %s" % (counts[crate], crate, ", ".join(saved)))
    if options.most is not None and whole > options.most:
        sys.exit(1)


if __name__ == "__main__":
    main()
