#!/usr/bin/env python3
"""Tries the two modules on one example each, under node: the text must be the one that the repository keeps.

    web/tests/try_modules.py MODULES

Where there is no node that can run them it says so, and ends with status 0.
"""
import os
import sys

HERE = os.path.dirname(os.path.abspath(__file__))
sys.path.insert(0, os.path.join(HERE, ".."))

from node import Node, NoNode  # noqa: E402
from repository import ROOT  # noqa: E402

from sdd.command import parser, start  # noqa: E402
from sdd.model.files import BadInput  # noqa: E402

CALLS = {"sdd1": ["run", "own.toml", "put_and_query.work"], "sdd1_inside": ["lost_packet.toml", "lost_packet.work"]}


def read(*path):
    with open(os.path.join(ROOT, "crates", *path), "rb") as f:
        return f.read()


def main():
    asked = parser(__doc__)
    asked.add_argument("modules", metavar="MODULES")
    asked = asked.parse_args()
    try:
        node = Node()
    except NoNode as fault:
        print("the modules weren't tried: %s" % fault)
        return 0
    with node:
        for name, call in CALLS.items():
            files = {x: read(name, "data", x) for x in call if "." in x}
            if node.program(os.path.join(asked.modules, name + ".wasm")).answer(call, files) != (0, b"", read(name, "stdout")):
                raise BadInput("%s.wasm doesn't print the text of its example" % name)
    print("both modules print the texts of their examples")
    return 0


if __name__ == "__main__":
    start(main)
