"""The words of `sdd1`, answered by the reference.

    sdd reference [--break RULE] WORD ..        RULE is one of those of sdd/reference/breaking.py
    sdd reference inside CAT WORK               the states of a run, as JSON lines (sdd/reference/inside.py)
    sdd reference robust CAT | needs CAT        what `sdd1_ask` answers (sdd/reference/ask.py)
    sdd reference robust CAT WORK               the same of transactions (sdd/reference/robust.py)
    sdd reference certify CAT WORK REPORT       the same of a report (sdd/reference/certify.py)

From words and files it makes a status, a line on standard error, and a text. Words are judged first, then the catalogue, then the workload, then the report. Definition: docs/FORMATS.md, "Words";
crates/sdd_app/specs/Answer.antt; crates/sdd_commands/specs/Command.antt.
"""
import os
import sys

from sdd.model.catalogue import read_catalogue
from sdd.model.words import Fault, number_between
from sdd.model.workload import read_workload
from sdd.reference.advise import advice_text
from sdd.reference import ask
from sdd.reference import breaking
from sdd.reference.certify import certificate_text
from sdd.reference.control import control_text
from sdd.reference.graph import graph_text, table_text
from sdd.reference.inside import inside_text
from sdd.reference.made import made_text
from sdd.reference.plain import plain_text
from sdd.reference.report import report_text
from sdd.reference.robust import robust_work_text
from sdd.reference.verify import verdict_text
from sdd.reference.world import Limit, run

USAGE = ("usage: sdd1 check CAT | graph CAT | table CAT | run CAT WORK | plain CAT WORK | make SEED N | control FILE"
         " | verify CAT WORK REPORT | advise CAT")


def check_text(cat):
    return "ok tms %d dms %d relations %d fragments %d classes %d\n" % (
        cat.tms, cat.dms, len(cat.relations), len(cat.fragments), len(cat.classes))


OF_CATALOGUE = {"check": check_text, "graph": graph_text, "table": table_text, "advise": advice_text, **ask.OF_CATALOGUE}


def run_text(cat, work):
    return report_text(run(cat, work))


OF_WORKLOAD = {"run": run_text, "plain": plain_text, "inside": inside_text, "robust": robust_work_text}
OF_REPORT = {"verify": verdict_text, "certify": certificate_text}


def text_of(words, read):
    """The text of a call; `read` gives the bytes of a named file."""
    key, *names = words or [""]
    if key in OF_CATALOGUE and len(names) == 1:
        return OF_CATALOGUE[key](read_catalogue(read(names[0])))
    if key in OF_WORKLOAD and len(names) == 2:
        cat = read_catalogue(read(names[0]))
        return OF_WORKLOAD[key](cat, read_workload(cat, read(names[1])))
    if key == "control" and len(names) == 1:
        return control_text(read(names[0]))
    if key in OF_REPORT and len(names) == 3:
        cat = read_catalogue(read(names[0]))
        work = read_workload(cat, read(names[1]))
        return OF_REPORT[key](cat, work, read(names[2]))
    if key == "make" and len(names) == 2:
        seed, count = number_between(names[0], 0, 2**31 - 1), number_between(names[1], 0, 2048)
        if None not in (seed, count):
            return made_text(seed, count)
    raise Fault(2, USAGE)


def answer(words, read):
    """The status, what is written to standard error, and what standard output is."""
    try:
        return 0, "", text_of(words, read)
    except Fault as fault:
        return fault.status, fault.line + "\n", ""
    except Limit:
        return 5, "limit\n", ""
    except OSError:
        return 6, "read fault\n", ""


def read_file(name):
    with open(name, "rb") as f:
        return f.read()


def main():
    """Answers the words of the process on its streams."""
    words = sys.argv[1:]
    if words[:1] in (["-h"], ["--help"]):
        print(__doc__.strip())
        return 0
    if words[:1] == ["--break"]:
        if len(words) < 2 or words[1] not in breaking.RULES:
            print("reference: --break RULE, where RULE is one of: " + ", ".join(breaking.RULES), file=sys.stderr)
            return 2
        breaking.break_rule(words[1])
        words = words[2:]
    status, reported, text = answer(words, read_file)
    try:
        sys.stdout.buffer.write(text.encode("utf-8", "surrogateescape"))
        sys.stdout.flush()
    except OSError:
        status, reported = 7, "write fault\n"
        os.dup2(os.open(os.devnull, os.O_WRONLY), 1)        # or what is left would be written at the end
    sys.stderr.write(reported)
    return status
