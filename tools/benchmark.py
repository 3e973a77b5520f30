#!/usr/bin/env python3
"""Measures `sdd1` on made workloads, and prints a table.

    tools/benchmark.py [--program COMMAND] [--beside COMMAND] [--into FILE] [--note TEXT] [--only KIND ..]
                       [--inside COMMAND] [--part N] [--runs N] [--seconds N]

COMMAND is a built `sdd1`. Without --program the program is proved and built first, by `rt run` in
crates/sdd1 (which proves all crates that aren't proved yet), and linked as tools/install.sh installs it: with
mimalloc where gcc finds it. Of the program given by --beside the same is measured, and each figure is compared
by a ratio: how many times what the other takes. The last column says whether both print the same text. With
--inside, a built `sdd1_inside`, some lines say what that takes.

The table goes to standard output; with --into it takes the place of what stands in that file between the
lines `<!-- benchmark: begin -->` and `<!-- benchmark: end -->`, with a sentence above it that says when it was made
and whose malloc the program has, and --note, which should say how the programs were built.

The workloads are those of `sdd make-workload --help`, with the number that stands behind the name;
`small` is bank.work of crates/sdd1/data, and `make` is a call of `make`. --part N takes an Nth of each. Time is that of the processor in the
program and the system, memory the most that was in use at once, both the least of some runs (--runs, 3).
Instructions are counted in one further run by valgrind's callgrind, in the program alone; where there is no
valgrind, or a run takes too long, a dash stands in their place. An event is one of the run: those of a
settle are counted, by an event after it that finds nothing. A call that takes longer than --seconds (600)
is ended, and the table says so. Time and memory have a floor, some 2 ms and 2 MB, which is what starting
a program costs. The whole table takes some 15 minutes with two programs and their instructions.
"""
import os
import shutil
import subprocess
import sys
import tempfile
import time
from typing import NamedTuple

import sdd_path  # noqa: F401
from link_program import QUICK, link
from measuring import Room
from sdd.bench.make_workload import MEASURED, write_workload
from sdd.command import count, parser, parts_of, start
from sdd.model.files import BadInput
from sdd.programs import ROOT

CRATE = os.path.join(ROOT, "crates", "sdd1")
FINDS_NOTHING = "lose T1 D1 1\n"
BEGIN, END = "<!-- benchmark: begin -->\n", "<!-- benchmark: end -->\n"
HEAD = ["workload", "command", "events", "seconds", "MB", "million instructions", "an event"]
RATIOS = ["ratio: seconds", "MB", "instructions", "same text"]


class Call(NamedTuple):
    kind: str
    n: int
    command: str


def several(kind, sizes, *commands):
    return [Call(kind, n, command) for n in sizes for command in commands]


CALLS = (several("make", [2048], "make") + several("small", [1], "run") + several("bank", [42, 420], "run") + several("bank", [2048], "run", "verify")
         + several("mesh", [1000, 10000, 100000], "run") + several("fragments", [10000], "run") + several("rows", [1000, 10000], "run", "plain")
         + several("joins", [1000, 10000], "plain") + several("scans", [100], "run", "plain")
         + several("replies", [20, 200], "run") + several("replies", [200], "plain") + several("texts", [200], "run", "plain")
         + several("flood", [100000], "run") + several("scatter", [100000], "run") + several("classes", [2048], "run")
         + several("readers", [270, 2048], "run") + several("resends", [100, 500], "run")
         + several("largest", [64], "check", "table") + several("hubs", [4000], "plain") + several("rings", [560], "plain")
         + several("undeclared", [16, 64], "run", "inside"))


def files_of(kind, folder, n):
    """A catalogue and a workload, with an event at the end that finds nothing."""
    if kind == "small":
        catalogue, given = (os.path.join(CRATE, "data", x) for x in ("bank.toml", "bank.work"))
    else:
        catalogue, given = write_workload(folder, kind, n)
    with open(given, encoding="utf-8") as f:
        text = f.read()
    workload = os.path.join(folder, "workload")
    with open(workload, "w", encoding="utf-8", newline="\n") as f:
        f.write(text.removesuffix("end\n") + FINDS_NOTHING + "end\n")
    return [catalogue, workload]


def words_of(call, program, folder, part):
    """The words of the call; a report that is judged is made by the program itself."""
    if call.command == "make":
        return ["make", "1", str(max(1, call.n // part))]
    files = files_of(call.kind, folder, max(1, call.n // part))
    if call.command == "inside":
        return files
    if call.command in ("check", "table"):
        return [call.command, files[0]]
    if call.command == "verify":
        report = os.path.join(folder, "report")
        with open(report, "wb") as f:
            subprocess.run(program + ["run"] + files, stdout=f, check=True)
        files.append(report)
    return [call.command] + files


class Figures(NamedTuple):
    """What was measured of one program, and the instructions, where they were counted."""
    run: object
    instructions: object


def figures(program, words, room, runs):
    got = room.least(program + words, runs)
    return Figures(got, None if got.fault else room.instructions(program + words))


def cells(got):
    run, counted = got
    if run.fault:
        return ["-", run.fault, "-", "-", "-"]
    each = "%d" % (counted / run.events) if counted and run.events else "-"
    return [str(run.events or "-"), "%.3f" % run.seconds, "%.0f" % run.megabytes, "%.1f" % (counted / 1e6) if counted else "-", each]


def ratio(mine, other):
    return "%.2f" % (mine / other) if mine and other else "-"


def ratios(got, other):
    if got.run.fault or other.run.fault:
        return ["-", "-", "-", other.run.fault or "-"]
    return [ratio(got.run.seconds, other.run.seconds), ratio(got.run.megabytes, other.run.megabytes),
            ratio(got.instructions, other.instructions), "yes" if got.run.text == other.run.text else "NO"]


def table(rows):
    """The rows as lines of a table, the first one as its head."""
    widths = [max(len(row[k]) for row in rows) for k in range(len(rows[0]))]
    lines = ["| %s |" % " | ".join(x.ljust(w) for x, w in zip(row, widths)) for row in rows]
    return "\n".join(lines[:1] + ["|%s|" % "|".join("-" * (w + 2) for w in widths)] + lines[1:]) + "\n"


def halves(path, begin, end):
    """What stands before and after the table in a file."""
    with open(path, encoding="utf-8") as f:
        text = f.read()
    if text.count(begin) != 1 or text.count(end) != 1 or text.index(begin) > text.index(end):
        raise BadInput("%s: the lines %s and %s don't stand there once each" % (path, begin.strip(), end.strip()))
    before, rest = text.split(begin)
    return before + begin, end + rest.split(end)[1]


def put_table(rows, program, asked, begin, end):
    """Prints the table, or writes it into a file between two lines, with a sentence above it."""
    if asked.into is None:
        print(table(rows), end="")
        return
    made = "Made by `tools/%s` on %d processors, %s; times are the least of %d runs. The malloc of the program is that of %s. %s" % (
        os.path.basename(sys.argv[0]), os.cpu_count(), time.strftime("%Y-%m-%d"), asked.runs, malloc_of(program), asked.note)
    before, after = halves(asked.into, begin, end)
    with open(asked.into, "w", encoding="utf-8", newline="\n") as f:
        f.write("%s\n%s\n\n%s\n%s" % (before, made.strip(), table(rows), after))


def malloc_of(program):
    """Whose malloc a built program has."""
    with open(shutil.which(program[0]) or program[0], "rb") as f:
        return "mimalloc" if QUICK.encode() in f.read() else "libc"


def built(folder):
    """The program, proved and built here, and linked as it is installed."""
    print("proving and building crates/sdd1", file=sys.stderr)
    try:
        subprocess.run(["rt", "run"], cwd=CRATE, stdout=subprocess.DEVNULL, check=False)
    except OSError as fault:
        raise BadInput("rt doesn't run: %s" % fault.strerror.lower()) from None
    program, linked = os.path.join(CRATE, "out", "sdd1"), os.path.join(folder, "sdd1")
    if not os.path.exists(program):
        raise BadInput("`rt run` left no program; give one by --program")
    if not os.path.exists(program + ".o") or shutil.which("gcc") is None:
        return [program]
    link(program + ".o", linked)
    return [linked]


def demanded():
    """What the words ask for."""
    asked = parser(__doc__)
    asked.add_argument("--program", metavar="COMMAND", help="a built `sdd1`")
    asked.add_argument("--beside", metavar="COMMAND", help="a program that takes the same words")
    asked.add_argument("--inside", metavar="COMMAND", help="a built `sdd1_inside`")
    asked.add_argument("--into", metavar="FILE", help="a file with a table that is replaced")
    asked.add_argument("--note", metavar="TEXT", default="", help="what is said above the table")
    asked.add_argument("--only", metavar="KIND", nargs="+", choices=["small", "make"] + list(MEASURED), help="these workloads alone")
    asked.add_argument("--part", metavar="N", type=count, default=1, help="an Nth of each workload")
    asked.add_argument("--runs", metavar="N", type=count, default=3, help="how often each call is timed")
    asked.add_argument("--seconds", metavar="N", type=count, default=600, help="the most that a call may take")
    asked = asked.parse_args()
    if 0 in (asked.part, asked.runs, asked.seconds):
        raise BadInput("--part, --runs and --seconds are 1 or more")
    return asked


def row_of(call, program, beside, asked):
    """The line of one call; BESIDE is None where there is nothing to compare with."""
    with tempfile.TemporaryDirectory(prefix="benchmark-") as folder:
        room, words = Room(folder, asked.seconds), words_of(call, program, folder, asked.part)
        got = figures(program, words, room, asked.runs)
        name = call.kind if call.kind == "small" else "%s %d" % (call.kind, max(1, call.n // asked.part))
        row = [name, call.command] + cells(got)
        if asked.beside is None:
            return row
        return row + (ratios(got, figures(beside, words, room, asked.runs)) if beside else ["-"] * len(RATIOS))


def measured_rows(program, asked):
    """The line of each call."""
    beside = None if asked.beside is None else parts_of(asked.beside)
    rows = [HEAD + (RATIOS if beside else [])]
    for call in CALLS:
        is_inside = call.command == "inside"
        if (asked.only is None or call.kind in asked.only) and (asked.inside or not is_inside):
            rows.append(row_of(call, parts_of(asked.inside) if is_inside else program, None if is_inside else beside, asked))
            print(" | ".join(rows[-1]), file=sys.stderr)
    return rows


def main():
    asked = demanded()
    with tempfile.TemporaryDirectory(prefix="benchmark-") as folder:
        program = built(folder) if asked.program is None else parts_of(asked.program)
        if asked.into:
            halves(asked.into, BEGIN, END)
        put_table(measured_rows(program, asked), program, asked, BEGIN, END)


if __name__ == "__main__":
    start(main)
