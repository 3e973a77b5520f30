#!/usr/bin/env python3
"""Tries on PostgreSQL what `sdd robust` says of SmallBank, with both accounts in one row and in two, and of other applications.

    tests/databases/measure_promise.py [APPLICATION ..] [--histories N] [--size N] [--level LEVEL] [--into FOLDER] [--program COMMAND]

APPLICATION is smallbank where none is named, or tpcc, tatp, ycsb. Of each design N histories (200) of as many transactions (200) are run from 12 connections at REPEATABLE READ, which is snapshot
isolation there, and judged. PostgreSQL is started here, from Debian's packages, in a scratch folder. With --into the histories are kept; those
that are there are judged again and not run.
"""
import contextlib
import json
import os
import sys
import tempfile

sys.path.insert(1, os.path.dirname(os.path.abspath(__file__)))

from measure_levels import how, judged, row_of, summary  # noqa: E402
from sdd.bench.make_workload import write_workload  # noqa: E402
from sdd.command import count, parser, start  # noqa: E402
from sdd.judge.history_command import read_files  # noqa: E402
from sdd.model.files import BadInput  # noqa: E402
from sdd.programs import Program, add_program  # noqa: E402
from servers import Postgres  # noqa: E402

DESIGNS = {"smallbank": ["apart", "first"], "tpcc": ["beside"], "tatp": ["merged"], "ycsb": ["scanner"]}


def run_design(application, design, asked, address, folder, program):
    made = []
    os.makedirs(folder, exist_ok=True)
    with tempfile.TemporaryDirectory(prefix="promise-") as room:
        for seed in range(1, asked.histories + 1):
            paths = write_workload(os.path.join(room, str(seed)), application, asked.size, seed, design=design)
            found = judged(how("postgres", address, asked.level, seed=seed, rest=1), *read_files(paths), os.path.join(folder, "%d.jsonl" % seed), program, kept=True)
            made.append({"engine": "postgres", "level": asked.level} | summary(found))
            print(json.dumps({"application": application, "design": design, "seed": seed} | {k: made[-1][k] for k in ("yes", "no", "cut", "words", "kinds")}), flush=True)
    return made


def main():
    asked = parser(__doc__)
    asked.add_argument("applications", metavar="APPLICATION", nargs="*")
    asked.add_argument("--histories", metavar="N", type=count, default=200)
    asked.add_argument("--size", metavar="N", type=count, default=200)
    asked.add_argument("--level", default="repeatable-read")
    asked.add_argument("--into", metavar="FOLDER")
    add_program(asked)
    asked = asked.parse_args()
    unknown = set(asked.applications) - set(DESIGNS)
    if unknown:
        raise BadInput("%s is no application; they are %s" % (min(unknown), ", ".join(DESIGNS)))
    if Postgres.missing():
        print("skipped: %s" % Postgres.missing())
        return 0
    program, rows = Program(asked.program), []
    with contextlib.ExitStack() as stack:
        room = asked.into or stack.enter_context(tempfile.TemporaryDirectory(prefix="promise-"))
        address = stack.enter_context(Postgres()).address
        for application, design in ((x, design) for x in asked.applications or ["smallbank"] for design in DESIGNS[x]):
            made = run_design(application, design, asked, address, os.path.join(room, application, design), program)
            rows.append("%s %s: %s" % (application, design, row_of(made)))
    print("\n".join(rows))
    return 0


if __name__ == "__main__":
    start(main)
