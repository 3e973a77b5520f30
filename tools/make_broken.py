#!/usr/bin/env python3
"""Makes the reports of examples/broken, or checks them.

    tools/make_broken.py [--check]

Each folder there is named after a rule of sdd/reference/breaking.py. Its report is what the reference prints of its
catalogue and workload with the rule broken, and its picture that of the report. Whether it is written or checked, it is
asked that no serial order explains the report (sdd all-orders; of `commit-order`, that the printed order doesn't),
that sdd check-history finds what is wrong, and that with all rules kept an order explains what comes out.
"""
import argparse
import os
import subprocess
import sys
import tempfile

import sdd_path  # noqa: F401
from sdd.judge.all_orders import judged, read_inputs
from sdd.model.files import BadInput
from sdd.model.report import read_report
from sdd.programs import ROOT, own_command
from sdd.reference import breaking
from sdd.reference.commands import run_text
from sdd.reference.verify import verdict

BROKEN = os.path.join(ROOT, "examples", "broken")


def need(holds, what):
    if not holds:
        raise BadInput(what)


def outcome(*words):
    """The status of a call of `sdd`, and what it prints."""
    done = subprocess.run(own_command(*words), capture_output=True, text=True)
    need(not done.stderr, done.stderr.strip())
    return done.returncode, done.stdout


def report_of(cat, work, rule):
    """The report, with a rule broken where there is one."""
    if rule:
        breaking.break_rule(rule)
    try:
        return run_text(cat, work)
    finally:
        breaking.mend()


def write(path, text):
    with open(path, "w", encoding="utf-8", newline="\n") as f:
        f.write(text)
    return path


def judge(rule, cat, work, files, room):
    """That the broken report is wrong, and the whole one right."""
    catalogue, workload, report = files
    printed = verdict(cat, work, report_of(cat, work, rule).encode()) is None
    is_explained = judged(read_report(report), cat, work) is not None
    need(not is_explained if rule != "commit-order" else not printed, "%s: an order explains it" % rule)
    history = os.path.join(room, "history.edn")
    outcome("to-elle", report, workload, catalogue, "--along-order", "--into", history)
    need(outcome("check-history", history)[0] == 1, "%s: the history has no fault" % rule)
    whole = write(os.path.join(room, "whole"), report_of(cat, work, None))
    need(judged(read_report(whole), cat, work) is not None, "%s: no order explains the run with all rules kept" % rule)


def make(rule, check, room):
    folder = os.path.join(BROKEN, rule)
    catalogue, workload, report = files = [os.path.join(folder, x) for x in ("catalogue.toml", "workload", "report")]
    cat, work = read_inputs(catalogue, workload)
    made = write(os.path.join(room, "report") if check else report, report_of(cat, work, rule))
    with open(made, "rb") as f, open(report, "rb") as g:
        need(f.read() == g.read(), "%s: the report differs" % rule)
    if not check:
        outcome("picture", report, catalogue, "--into", os.path.join(folder, "picture.svg"))
    judge(rule, cat, work, files, room)


def main():
    asked = argparse.ArgumentParser(description=__doc__, formatter_class=argparse.RawDescriptionHelpFormatter, usage=argparse.SUPPRESS)
    asked.add_argument("--check", action="store_true", help="write nothing")
    asked = asked.parse_args()
    try:
        for rule in breaking.RULES:
            with tempfile.TemporaryDirectory(prefix="broken-") as room:
                make(rule, asked.check, room)
    except (BadInput, OSError) as fault:
        print("make_broken.py: %s" % fault, file=sys.stderr)
        return 1
    print("%d rules: each report is wrong, and right with all rules kept" % len(breaking.RULES))
    return 0


if __name__ == "__main__":
    sys.exit(main())
