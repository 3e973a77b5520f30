#!/usr/bin/env python3
"""Compares the programs as WebAssembly with the natively built ones: status, error line and text, byte for byte.

    web/compare.py MODULES --program COMMAND --inside COMMAND [--random N] [--seed K] [--only PART ..]

MODULES is the folder of web/modules.py; COMMAND a natively built `sdd1`, and a built `sdd1_inside`. Parts:

cases      the cases of the gate, as the program of cases runs them, with shelves and sinks that fail: sdd_cases.wasm must print
           crates/sdd_cases/stdout. Left out where MODULES has no sdd_cases.wasm
calls      each case of the gate as a call of `sdd1`, those with cut files once for each cut
examples   all commands on the examples, and `sdd1_inside`
random     N calls of each kind of tools/fuzz.py, from seed K on; without --random 200, and from 0

The programs run under node, by the script that runs them in the page. It prints each difference, and ends with 1 where
there is one.
"""
import os
import random
import time

from node import Node
from repository import CASES, EXAMPLES

import make_cases
import random_calls
import try_cases
from answers import NoProgram, Program
from sdd.command import count, parser, start
from sdd.model.files import BadInput

PARTS = ["cases", "calls", "examples", "random"]
ON_CATALOGUE = ["check", "graph", "table", "advise"]


def read(*path):
    with open(os.path.join(*path), "rb") as f:
        return f.read()


class Comparison:
    def __init__(self, asked, node):
        self.asked, self.node = asked, node
        self.pairs = {"sdd1": (self.module("sdd1"), Program("sdd1", asked.program)),
                      "inside": (self.module("sdd1_inside"), Program("sdd1_inside", asked.inside))}
        self.tried = self.different = 0

    def module(self, name):
        return self.node.program(os.path.join(self.asked.modules, name + ".wasm"))

    def same(self, what, program, words, files):
        module, native = self.pairs[program]
        have, want = module.answer(words, files), native.answer(words, files)
        self.count(what, have, want)

    def count(self, what, have, want):
        self.tried += 1
        if have == want:
            return
        self.different += 1
        print("%s: as WebAssembly status %s, %d bytes, %r; natively status %s, %d bytes, %r" % (
            what, have[0], len(have[2]), have[1][:200], want[0], len(want[2]), want[1][:200]), flush=True)

    def cases(self):
        if not os.path.exists(os.path.join(self.asked.modules, "sdd_cases.wasm")):
            print("cases: left out, there is no sdd_cases.wasm")
            return
        want = read(CASES, "stdout")
        self.count("the cases", self.module("sdd_cases").answer([], {"": read(CASES, "stdin")}), (0, b"", want))
        print("cases: the text of %d cases" % (want.count(b"\ncase ") + want.startswith(b"case ")))

    def calls(self):
        for program, called in (("sdd1", "sdd1"), ("inside", make_cases.INSIDE)):
            for name, words, files in try_cases.calls(called):
                self.same("case " + name, program, words, files)

    def examples(self):
        for name in sorted(os.listdir(EXAMPLES)):
            files = {x: read(EXAMPLES, name, x) for x in ("catalogue.toml", "workload", "report") if os.path.exists(os.path.join(EXAMPLES, name, x))}
            if "catalogue.toml" not in files:
                continue
            calls = [[word, "catalogue.toml"] for word in ON_CATALOGUE]
            if "workload" in files:
                calls += [[word, "catalogue.toml", "workload"] for word in ("run", "plain")] + [["verify", "catalogue.toml", "workload", "report"]]
                self.same("inside of " + name, "inside", ["catalogue.toml", "workload"], files)
            for words in calls:
                self.same("%s of %s" % (words[0], name), "sdd1", words, files)

    def random(self):
        for seed in range(self.asked.seed, self.asked.seed + self.asked.random):
            for kind, drawn in random_calls.KINDS.items():
                call = drawn(random.Random("%s %d" % (kind, seed)))
                if call.program() != "ask":
                    is_inside = call.program() == "inside"
                    self.same("seed %d, %s" % (seed, kind), "inside" if is_inside else "sdd1", call.words[is_inside:], call.files)

    def run(self, part):
        tried, different, begin = self.tried, self.different, time.monotonic()
        getattr(self, part)()
        print("%s: %d compared, %d different, %.0f s" % (part, self.tried - tried, self.different - different, time.monotonic() - begin), flush=True)


def main():
    asked = parser(__doc__)
    asked.add_argument("modules", metavar="MODULES")
    asked.add_argument("--program", metavar="COMMAND", required=True)
    asked.add_argument("--inside", metavar="COMMAND", required=True)
    asked.add_argument("--random", metavar="N", type=count, default=200)
    asked.add_argument("--seed", metavar="K", type=count, default=0)
    asked.add_argument("--only", metavar="PART", nargs="+", choices=PARTS, default=PARTS)
    asked = asked.parse_args()
    try:
        with Node() as node:
            comparison = Comparison(asked, node)
            for part in asked.only:
                comparison.run(part)
    except NoProgram as fault:
        raise BadInput(str(fault)) from None
    print("%d compared, %d different" % (comparison.tried, comparison.different))
    return 1 if comparison.different else 0


if __name__ == "__main__":
    start(main)
