#!/usr/bin/env python3
"""Tries the commands of `sdd` and the scripts of tools/ on good and bad words and files.

    tests/try_tools.py --program COMMAND

COMMAND is a built `sdd1`. Each command, and each script that is executable, has to answer --help. Of each call below the status has
to be the one that is given; a refusal is one line on standard error, or that of a file with its place, and never a traceback. A call
that does something else is printed, and a last line counts them; the status is 1 where there was one.
"""
import os
import subprocess
import sys
import tempfile

import sdd_path  # noqa: F401
from sdd.cli import COMMANDS
from sdd.command import parser, start
from sdd.programs import add_program

TOP = os.path.join(os.path.dirname(os.path.abspath(__file__)), "..")
TOOLS = os.path.join(TOP, "tools")
CAT, WORK, REPORT = ("examples/two_protocols/" + x for x in ("catalogue.toml", "workload", "report"))
P = ["--program", "PROGRAM"]
GOOD = [
    ["check", CAT] + P, ["run", CAT, WORK, "--json"] + P, ["verify", CAT, WORK, REPORT] + P, ["inside", CAT, WORK, "--program", "reference"],
    ["make", "5", "20"] + P, ["reference", "table", CAT], ["graph-picture", CAT] + P, ["page", CAT, WORK] + P, ["make_pyz.py", "ROOM/sdd.pyz"],
    ["link_documents.py", "--check"], ["check_tables.py", "--check"], ["try_cases.py"] + P, ["find-broken", "all-p1", "examples/broken/all-p1/catalogue.toml", "examples/broken/all-p1/workload", "0", "1"],
    ["make-workload", "bank", "3", "--into", "ROOM/new/bank"],
    ["make-workload", "tpcc", "3", "--design", "owners", "--into", "ROOM/tpcc"],
    ["explore", CAT, WORK, "--runs", "3", "--picture", "ROOM/picture.svg"] + P,
    ["explore", CAT, WORK, CAT, WORK, "--runs", "3", "--events", "--faults", "5"] + P,
    ["explore", CAT, WORK, "--runs", "3", "--link", "20", "--near", "T1-D1=0.2", "--service", "D=0.1", "--picture", "ROOM/curves.svg", "--worst", "ROOM/worst"] + P,
    ["explore", CAT, WORK, CAT, WORK, CAT, WORK, "--runs", "2", "--times", "examples/sql/four_sites.toml", "--csv", "--program", "reference"],
    ["what-if", CAT, WORK, "--runs", "2", "--steps", "1", "--into", "ROOM/better"], ["what-if", CAT, WORK, "--runs", "2", "--steps", "0", "--json"],
    ["exercise"], ["exercise", "3", "--hint"], ["exercise", "12", "--into", "ROOM/tickets"],
    ["grade", CAT, WORK, REPORT],
    ["from-sql", "examples/sql/clinics.sql", "--into", "ROOM/clinics", "--classes", "module"],
    ["shrink", CAT, WORK, "--keep", "order", "--keep", "wait tally", "--into", "ROOM/small"] + P,
    ["shrink", CAT, WORK, "--command", "grep -q tally", "--into", "ROOM/small"],
    ["explain", "workload: line 1: BadLine", CAT, WORK],
    ["explain", "catalogue: class 1: WrongKind", CAT],
    ["explain", "limit"],
    ["from-sql", "examples/sql/bank.sql", "--into", "ROOM/sql"],
    ["to-elle", REPORT, WORK, CAT, "--into", "ROOM/history"],
    ["check-history", "ROOM/history"],
    ["plant-faults", "--each", "1"] + P,
    ["show_catalogues.py"] + P,
    ["make_examples.py", "--check", "--only", "bridge", "two_protocols"] + P,
    ["fuzz.py", "0", "3", "run", "plain"] + P,
    ["all-orders", REPORT, WORK, CAT],
    ["history", CAT, WORK, "--engine", "sqlite", "--level", "immediate", "--into", "ROOM/h.jsonl"],
    ["judge", "ROOM/h.jsonl", "--into", "ROOM/judged", "--strict"] + P, ["judge", "ROOM/history", "--elle"] + P,
    ["history", "examples/histories/lost_update.sql", "--engine", "sqlite", "--address", "ROOM/h.db", "--into", "ROOM/h.jsonl"],
    ["benchmark.py", "--only", "small", "--runs", "1"] + P,
    ["benchmark.py", "--only", "bank", "rows", "largest", "make", "--part", "100", "--beside", "PROGRAM"] + P,
    ["benchmark_joins.py", "--drawn", "2"] + P,
    ["measure_gate.py", "--log", "ROOM/log", "--into", "ROOM/gate", "--", "true"],
    ["write_log_examples.py", "--check"], ["proof_map.py", "--into", "ROOM/map", "--picture", "ROOM/map.svg"], ["proof_map.py", "--unused"],
    ["layers.py", "--into", "ROOM/layers.svg"], ["crate_paths.py", "--most", "57000"], ["try_changes.py", "verify"],
    ["page", CAT, WORK, "--into", "ROOM/page.html"] + P, ["picture", REPORT, CAT, WORK, "--into", "ROOM/run.svg"] + P,
    ["graph-picture", "examples/ycsb/catalogue.toml", "--into", "ROOM/matrix.svg"] + P, ["check_inside.py", "0", "3"],
]
BAD = [
    ["check"], ["check", "/no/a"] + P, ["check", CAT, "--program", "/no/p"], ["check", "examples", "-q"] + P, ["make", "x", "1"] + P,
    ["make-workload"], ["make-workload", "nokind", "--into", "ROOM/x"], ["make-workload", "bank", "-5", "--into", "ROOM/x"],
    ["make-workload", "bank", "9999", "--into", "ROOM/x"], ["make-workload", "bank", "3", "--into", "/proc/x"],
    ["make-workload", "tpcc", "--design", "no", "--into", "ROOM/x"], ["make-workload", "bank", "--design", "no", "--into", "ROOM/x"],
    ["explore", CAT, WORK, "--times", "/no/t"] + P, ["explore", CAT, WORK, "--link", "far"] + P, ["explore", CAT, WORK, "--near", "T1"] + P,
    ["explore", CAT, WORK, "--near", "T9-D1=1"] + P, ["explore", CAT, WORK, "--every", "3"] + P, ["explore", CAT, WORK, "--link", "1", "--pace", "2"] + P,
    ["what-if"], ["what-if", CAT], ["what-if", WORK, CAT], ["what-if", CAT, WORK, "--runs", "0"], ["what-if", CAT, WORK, "--near", "T9-D1=1"],
    ["exercise", "13"], ["exercise", "x"], ["exercise", "1", "--into", "/proc/x"], ["grade"], ["grade", CAT, WORK], ["grade", CAT, WORK, "/no/r"],
    ["explore"], ["explore", CAT], ["explore", "/no/a", "/no/b"] + P, ["explore", CAT, CAT] + P, ["explore", WORK, WORK] + P,
    ["explore", CAT, "examples/bank/workload"] + P, ["explore", CAT, WORK, "--runs", "0"] + P, ["explore", CAT, WORK, "--program", "/no/p"],
    ["explore", CAT, WORK, "--program", ""], ["explore", CAT, WORK, "--runs", "2", "--picture", "/no/x"] + P,
    ["shrink"], ["shrink", CAT, WORK, "--keep", "x", "--into", "ROOM/x", "--program", "/no/p"],
    ["shrink", CAT, WORK, "--keep", "no such line", "--into", "ROOM/x"] + P, ["shrink", "/no/a", WORK, "--keep", "x", "--into", "ROOM/x"] + P,
    ["shrink", CAT, WORK, "--command", "/no/p", "--into", "ROOM/x"],
    ["explain"], ["explain", "nonsense"], ["explain", "workload: line 1: BadLine"], ["explain", "catalogue: top: NotToml", "/no/a"],
    ["from-sql"], ["from-sql", "/no/a", "--into", "ROOM/x"], ["from-sql", CAT, "--into", "ROOM/x"],
    ["to-elle"], ["to-elle", "/no/a", WORK, CAT], ["to-elle", WORK, WORK, CAT], ["to-elle", REPORT, WORK, "examples/bank/catalogue.toml"],
    ["check-history"], ["check-history", "/no/a"], ["check-history", CAT],
    ["plant-faults", "--each", "x"], ["plant-faults", "--program", "/no/p"],
    ["show_catalogues.py", "--program", "/no/p"], ["show_catalogues.py", "x"],
    ["make_examples.py", "--only", "no"], ["make_examples.py", "--check", "--only", "bridge", "--program", "/no/p"],
    ["compare_messages.py"], ["compare_messages.py", "x", "y"], ["fuzz.py"], ["fuzz.py", "0", "1", "nokind"] + P,
    ["fuzz.py", "0", "1", "plain", "--program", "/no/p"], ["all-orders"], ["all-orders", "/no/a", WORK, CAT],
    ["all-orders", REPORT, "/no/a", CAT], ["find-broken"], ["find-broken", "norule"], ["make_broken.py", "x"],
    ["picture"], ["picture", "/no/a"], ["picture", REPORT, "examples/bank/catalogue.toml"], ["graph-picture"],
    ["graph-picture", "/no/a"] + P, ["page"], ["page", "/no/a", "/no/b", "--into", "ROOM/x"], ["play"], ["play", "/no/a"],
    ["page", CAT, WORK, "--into", "ROOM/x", "--inside", "/no/p"], ["check_inside.py"], ["check_inside.py", "0", "1", "--inside", "/no/p"],
    ["benchmark.py", "--only", "nokind"], ["benchmark.py", "--only", "small", "--program", "/no/p"], ["benchmark.py", "--program", ""],
    ["benchmark.py", "--part", "0"] + P, ["benchmark.py", "--only", "small", "--into", "README.md"] + P,
    ["benchmark_joins.py"], ["benchmark_joins.py", "--program", "/no/p"], ["benchmark_joins.py", "--runs", "0"] + P,
    ["benchmark.py", "--only", "small", "--beside", "/no/p"] + P, ["measure_gate.py", "--", "/no/p"],
    ["history"], ["history", CAT, WORK], ["history", "/no/a.sql", "--into", "ROOM/x"], ["history", CAT, WORK, "--engine", "sqlite", "--into", "/no/x"],
    ["history", CAT, WORK, "--engine", "sqlite", "--level", "snapshot", "--into", "ROOM/x"], ["history", CAT, CAT, "--engine", "sqlite", "--into", "ROOM/x"],
    ["history", CAT, WORK, "--engine", "sqlite", "--turns", "a b", "--into", "ROOM/x"], ["history", CAT, WORK, "--engine", "oracle", "--into", "ROOM/x"],
    ["history", CAT, WORK, "--engine", "sqlite", "--address", "README.md", "--into", "ROOM/x"],
    ["history", CAT, WORK, "--engine", "sqlite", "--lose", "0.5", "--into", "ROOM/x"],
    ["judge"], ["judge", "/no/a"], ["judge", WORK] + P, ["judge", "ROOM/history"] + P, ["judge", "ROOM/h.jsonl", "--program", "/no/p"],
    ["judge", "ROOM/h.jsonl", "--into", "/proc/x"] + P,
    ["build_unproved.py"], ["build_unproved.py", "ROOM/x", "nocrate"], ["link_program.py"], ["link_program.py", "/no/a", "ROOM/x"],
    ["try_cases.py"], ["try_cases.py", "--program", "/no/p"], ["make_site.py"], ["make_site.py", "/proc/x", "--program", "/no/p"],
    ["program.py"], ["program.py", "nonsense"], ["program.py", "check", "/no/a"],
    ["write_log_examples.py", "x"], ["crate_paths.py", "--crates", "/no/a"], ["crate_paths.py", "--top", "nocrate"],
    ["try_changes.py", "nogroup"], ["try_changes.py", "--jobs", "x"], ["find_tactics.py"], ["find_tactics.py", "nocrate"],
]


def try_call(words, status, room, program):
    """What a call does that it shouldn't, in one line, or nothing."""
    first, *rest = [x.replace("ROOM", room).replace("PROGRAM", program) for x in words]
    called = [os.path.join(TOOLS, first)] if first.endswith(".py") else [os.path.join(TOP, "sdd"), first]
    try:
        done = subprocess.run([sys.executable] + called + rest, cwd=TOP, stdin=subprocess.DEVNULL,
                              stdout=subprocess.PIPE, stderr=subprocess.PIPE, timeout=300)
    except subprocess.TimeoutExpired:
        return "it takes over 300 seconds"
    errors = done.stderr.decode(errors="replace").splitlines()
    if done.returncode != status:
        return "status %d in place of %d: %s" % (done.returncode, status, " / ".join(errors[-1:]))
    if status == 2 and len(errors) != 1 and not errors[0].startswith("error["):
        return "%d lines on standard error" % len(errors)
    return "a traceback" if any(x.startswith("Traceback") for x in errors) else None


def main():
    asked = parser(__doc__)
    add_program(asked)
    asked = asked.parse_args()
    if asked.program is None:
        asked.error("give a built sdd1 by --program")
    scripts = sorted(x for x in os.listdir(TOOLS) if x.endswith(".py") and os.access(os.path.join(TOOLS, x), os.X_OK))
    calls = [([x, "--help"], 0) for x in scripts + list(COMMANDS)] + [(x, 0) for x in GOOD] + [(x, 2) for x in BAD]
    wrong = 0
    with tempfile.TemporaryDirectory(prefix="tools-") as room:
        for words, status in calls:
            fault = try_call(words, status, room, asked.program)
            if fault is not None:
                wrong += 1
                print("%s: %s" % (" ".join(words), fault), flush=True)
    print("%d calls, %d do something else" % (len(calls), wrong))
    return 1 if wrong else 0


if __name__ == "__main__":
    start(main)
