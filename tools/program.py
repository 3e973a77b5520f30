#!/usr/bin/env python3
"""Runs `sdd1` on files that lie anywhere, before its proof, and prints what it prints.

    tools/program.py WORD ..        as  tools/program.py run examples/bridge/catalogue.toml examples/bridge/workload

It takes the words of `sdd1`, runs the program by `rt try` (minutes: it is built for each call), and
ends with its status. tools/build_unproved.py builds a program once, for many calls.
"""
import os
import subprocess
import sys

import sdd_path  # noqa: F401
from sdd.command import start
from sdd.model.files import BadInput
from sdd.programs import ROOT, demand_files

CRATE = os.path.join(ROOT, "crates", "sdd1")


def with_data(words):
    """The words with names of their own for their files, and the options that give these names."""
    options, given = [], list(words)
    for k, word in enumerate(words):
        if k and os.path.isfile(word):
            given[k] = "file%d" % k
            options += ["--data", "file%d=%s" % (k, os.path.abspath(word))]
    return options, given


def by_try(words):
    """The command that runs the program unproved."""
    options, given = with_data(words)
    return ["rt", "try"] + options + ["--"] + given


def main():
    if len(sys.argv) < 2:
        raise BadInput("no words; see --help")
    demand_files(sys.argv[1:])
    try:
        return subprocess.run(by_try(sys.argv[1:]), cwd=CRATE).returncode
    except OSError as fault:
        raise BadInput("rt doesn't run: %s" % fault.strerror.lower()) from None


if __name__ == "__main__":
    if sys.argv[1:2] in (["-h"], ["--help"]):
        print(__doc__.strip())
        sys.exit()
    start(main)
