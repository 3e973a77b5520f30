#!/usr/bin/env python3
"""Draws the layers of the crates, from crates.txt and its headings.

    tools/layers.py [--text | --into docs/layers.svg]

A heading of crates.txt is a line `## NAME: what the layer is`; the crates behind it, up to the next heading, are
its crates. The picture has the program at the top; under the pointer a crate tells what it is (the first
sentence of its lib.rt or main.rt) and on which crates it stands. `--text` prints the same for a terminal.
"""
import argparse
import os
import re
import sys

import sdd_path  # noqa: F401
from sdd.view.svg import label, shape, whole, width_of

ROOT = os.path.normpath(os.path.join(os.path.dirname(os.path.abspath(__file__)), ".."))
STYLE = """
text { font: 12px sans-serif; fill: #222 } .h { font: bold 13px sans-serif } .n { fill: #555; font: 11px sans-serif }
.layer { fill: #f4f6f9; stroke: #c9d1dc } .crate { fill: #fff; stroke: #5b7aa5 }
"""
WIDTH, MARGIN, ROW, GAP = 960, 16, 26, 8


class Refused(Exception):
    """What is wrong with crates.txt."""


def layers_of(text):
    """The layers in the order of the file: a name, what it is, and its crates with what they name."""
    layers = []
    for number, line in enumerate(text.split("\n"), 1):
        heading = re.fullmatch(r"## ([^:]+): (.+)", line.strip())
        if heading:
            layers.append((heading[1], heading[2], []))
            continue
        line = line.partition("#")[0].strip()
        if line:
            if not layers:
                raise Refused("crates.txt: line %d: a crate stands above the first heading" % number)
            name, _, uses = line.partition(":")
            layers[-1][2].append((name.split()[0], uses.split()))
    return layers


def description_of(crate):
    """The first sentence of the crate's head comment."""
    for name in ("lib.rt", "main.rt"):
        path = os.path.join(ROOT, "crates", crate, "src", name)
        if os.path.isfile(path):
            with open(path, encoding="utf-8") as it:
                head = " ".join(line[3:].strip() for line in it if line.startswith("//!"))
            return re.split(r"(?<=[.:;]) ", head)[0] if head else ""
    return ""


def rows_of(crates):
    """The crates of a layer in rows that fit the width."""
    rows, used = [[]], 0
    for name, uses in crates:
        wide = width_of(name) * 1.2 + 20
        if used + wide > WIDTH - 2 * MARGIN - 16 and rows[-1]:
            rows.append([])
            used = 0
        rows[-1].append((name, uses, used, wide))
        used += wide + GAP
    return rows


def picture_of(layers):
    shapes, y = [], MARGIN
    for name, what, crates in reversed(layers):
        rows = rows_of(crates)
        height = 28 + len(rows) * (ROW + GAP) + 4
        shapes.append(shape("rect", "layer", x=MARGIN, y=y, width=WIDTH - 2 * MARGIN, height=height, rx=6))
        shapes.append(label(MARGIN + 10, y + 18, name, "h"))
        shapes.append(label(MARGIN + 24 + width_of(name) * 1.4, y + 18, what, "n"))
        for k, row in enumerate(rows):
            top = y + 28 + k * (ROW + GAP)
            for crate, uses, x, wide in row:
                reported = "%s\nstands on: %s" % (description_of(crate), ", ".join(uses) or "std alone")
                shapes.append(shape("rect", "crate", reported, x=MARGIN + 10 + x, y=top, width=wide, height=ROW, rx=4))
                shapes.append(label(MARGIN + 20 + x, top + 17, crate))
        y += height + GAP
    return whole(WIDTH, y + MARGIN - GAP, STYLE, shapes)


def text_of(layers):
    lines = []
    for name, what, crates in reversed(layers):
        lines.append("%s: %s" % (name.upper(), what))
        line = "   "
        for crate, _ in crates:
            if len(line) + len(crate) + 2 > 96:
                lines.append(line)
                line = "   "
            line += " " + crate
        lines += [line, ""]
    return "\n".join(lines).rstrip() + "\n"


def main(words):
    parser = argparse.ArgumentParser(description=__doc__, formatter_class=argparse.RawDescriptionHelpFormatter)
    parser.add_argument("--text", action="store_true", help="prints the layers for a terminal")
    parser.add_argument("--into", help="the file of the picture; else it is printed")
    options = parser.parse_args(words)
    try:
        with open(os.path.join(ROOT, "crates.txt"), encoding="utf-8") as it:
            layers = layers_of(it.read())
        made = text_of(layers) if options.text else picture_of(layers)
        if options.into:
            with open(options.into, "w", encoding="utf-8", newline="\n") as it:
                it.write(made)
        else:
            print(made, end="")
    except (Refused, OSError) as fault:
        print("layers.py: %s" % fault, file=sys.stderr)
        return 2
    return 0


if __name__ == "__main__":
    sys.exit(main(sys.argv[1:]))
