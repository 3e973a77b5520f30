#!/usr/bin/env python3
"""Writes the tables of docs/CHECK.md: what proving a law takes with what lies below it, and how much a statement rests on.

    tools/check_tables.py [--check]

The minutes are sums of the table of the gate in docs/TIMES.md along crates.txt, the definitions those that tools/statement.py
counts. With --check nothing is written, and it ends with 1 where the page would change.
"""
import os
import re

import sdd_path  # noqa: F401
import antt
import statement
from crate_paths import read_crates
from sdd.command import parser, start
from sdd.model.files import BadInput, text_of, write_text
from sdd.programs import ROOT

PAGE = os.path.join(ROOT, "docs", "CHECK.md")
ROW = re.compile(r"^\| `(\w+)` \| ([\d.]+) \| \S+(?: \(\d+\))? \| \S+ \| [\d.]+ \|$", re.MULTILINE)
LAWS = [
    ("sdd_blocks", "law_one_number_a_cycle", "the edges of a simple cycle of the conflict graph have one block number"),
    ("sdd_net", "law_in_order", "a link delivers what was put on it, in order, once"),
    ("sdd_wire", "law_spelling", "no two messages have one spelling"),
    ("sdd_copy", "law_order", "what a copy holds doesn't depend on the order in which changes arrive"),
    ("sdd_acyclic", "law_protocols_leave_no_cycle", "reads that follow the protocol table leave no cycle of precedence"),
    ("sdd_laws", "law_replay", "one database that runs the transactions in the serial order gives their replies"),
    ("sdd_control", "law_all_or_none", "a commit that backup sites complete is made everywhere or nowhere"),
    ("sdd_progress", "law_finished", "where the links are quiet and no module is down, all that was submitted is committed"),
    ("sdd_run", "law_one_report", "of a catalogue and a workload there is one report at most"),
]
STATEMENTS = [
    ("sdd_order", "IsSerial", "an order is serial"), ("sdd_shell", "EndsAs", "how a call ends"),
    ("sdd_acyclic", "ProtocolsLeaveNoCycle", "the protocols leave no cycle"), ("sdd_log", "IsTheLog", "a log is the one log of a list of events"),
    ("sdd_run", "IsReportOn", "a text is the report on a run"), ("sdd_app_inside", "IsInsideOf", "a text tells what happens inside a run"),
]


def minutes_of_crates():
    """Processor minutes of the proof of each crate that was measured."""
    found = {name: float(minutes) for name, minutes in ROW.findall(text_of(os.path.join(ROOT, "docs", "TIMES.md")))}
    if not found:
        raise BadInput("docs/TIMES.md has no table of the gate")
    return found


def below(crate, names):
    """The crates on which a crate rests."""
    found, left = set(), [crate]
    while left:
        for name in names[left.pop()]:
            if name not in found:
                found.add(name)
                left.append(name)
    return found


def law_lines():
    names, minutes = read_crates(os.path.join(ROOT, "crates.txt")), minutes_of_crates()
    yield "| law | it says | command | its crate | and what lies below |\n|---|---|---|---|---|\n"
    for crate, law, says in LAWS:
        under = sum(minutes.get(x, 0) for x in below(crate, names))
        yield "| `%s` | %s | `cd crates/%s && rt check` | %.1f | %.1f |\n" % (law, says, crate, minutes[crate], under)


def statement_lines():
    parts, _ = antt.read_all()
    yield "| statement | of | rests on |\n|---|---|---|\n"
    for crate, name, of in STATEMENTS:
        root = statement.root_of(parts, crate, name)
        if root is None:
            raise BadInput("%s has no definition %s" % (crate, name))
        yield "| `%s` of `%s` | %s | %s |\n" % (name, crate, of, statement.summary_of(parts, statement.reached(parts, [root]))[0])


def between(text, name, lines):
    """The page with what stands between the two marks of this name replaced."""
    begin, end = "<!-- %s: begin -->\n\n" % name, "\n<!-- %s: end -->" % name
    if text.count(begin) != 1 or text.count(end) != 1:
        raise BadInput("docs/CHECK.md has no marks of %s" % name)
    before, rest = text.split(begin)
    return before + begin + "".join(lines) + end + rest.split(end)[1]


def main():
    asked = parser(__doc__)
    asked.add_argument("--check", action="store_true", help="write nothing")
    asked = asked.parse_args()
    old = text_of(PAGE)
    new = between(between(old, "laws", law_lines()), "statements", statement_lines())
    if not asked.check:
        write_text(PAGE, new)
    elif new != old:
        print("docs/CHECK.md would change")
    return int(asked.check and new != old)


if __name__ == "__main__":
    start(main)
