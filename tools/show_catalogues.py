#!/usr/bin/env python3
"""Prints what the program tells of each catalogue in crates/sdd1/data.

    tools/show_catalogues.py [--program COMMAND]

For each catalogue its counts (`check`), its conflict graph (`graph`) and its protocol table (`table`).
COMMAND is a built `sdd1`; without it crates/sdd1/out/sdd1 is taken, where it is newer than all sources,
and else `rt try`, which builds the program once for each of the three commands.
"""
import glob
import os

import sdd_path  # noqa: F401
from sdd.command import parser, start
from sdd.programs import ROOT, Program, add_program, demand_text

COMMANDS = ["check", "graph", "table"]


def main():
    asked = parser(__doc__)
    add_program(asked)
    program = Program(asked.parse_args().program)
    catalogues = sorted(glob.glob(os.path.join(ROOT, "crates", "sdd1", "data", "*.toml")))
    reported = {command: program.ask_all([command, "{}"], catalogues) for command in COMMANDS}
    for k, catalogue in enumerate(catalogues):
        for command in COMMANDS:
            print("$ sdd1 %s %s" % (command, os.path.basename(catalogue)))
            print(demand_text(reported[command][k], [command]), end="")


if __name__ == "__main__":
    start(main)
