"""The command `sdd`: which word calls what.

A command is a line of COMMANDS below: its word, the group in which `sdd --help` lists it, the module that answers it, and
what it does in one line. The module has a docstring, which is what `sdd WORD --help` prints, and `main()`, which reads
`sys.argv` by `parser(__doc__)` of sdd/command.py and returns a status, or nothing for 0; it refuses by raising `BadInput`
of sdd/model/files.py with one line. The module is imported when its word is called, and not before.

To add a command: write the module, and add its line.
"""
import difflib
import importlib
import sys
from typing import NamedTuple

from sdd.command import REFUSED, start, write_plainly
from sdd.version import version_lines


class Command(NamedTuple):
    group: str
    module: str
    does: str


RUN, LOOK, DESIGN, JUDGE, TEACH, MAKE = "to run", "to look", "to design", "to judge", "to teach", "to make"
COMMANDS = {
    "check": Command(RUN, "sdd.calls", "what is in a catalogue, or its first fault"),
    "graph": Command(RUN, "sdd.calls", "the conflict graph of a catalogue"),
    "table": Command(RUN, "sdd.calls", "which reads follow which protocol"),
    "advise": Command(RUN, "sdd.calls", "why a read has its protocol"),
    "run": Command(RUN, "sdd.calls", "the report of the distributed system"),
    "plain": Command(RUN, "sdd.calls", "the replies of one plain database"),
    "verify": Command(RUN, "sdd.calls", "whether a report is serializable"),
    "inside": Command(RUN, "sdd.calls", "what happens inside a run, a line for each event"),
    "make": Command(RUN, "sdd.calls", "a summary of drawn transactions"),
    "control": Command(RUN, "sdd.calls", "how backup sites complete a commit"),
    "robust": Command(RUN, "sdd.calls", "whether snapshot isolation is enough for classes, or for transactions"),
    "needs": Command(RUN, "sdd.calls", "which modules each class needs"),
    "certify": Command(RUN, "sdd.calls", "whether a report is serializable, complete and strict"),
    "reference": Command(RUN, "sdd.reference.commands", "the same words, by the reference; also with a rule broken"),
    "explain": Command(RUN, "sdd.explain.explain", "what a refusal means, and what helps"),
    "page": Command(LOOK, "sdd.view.page", "a page that shows every packet of a run"),
    "play": Command(LOOK, "sdd.view.play", "the page, to make a schedule by clicking"),
    "picture": Command(LOOK, "sdd.view.picture", "a report as a picture"),
    "graph-picture": Command(LOOK, "sdd.view.graph_picture", "the conflict graph as a picture"),
    "explore": Command(DESIGN, "sdd.design.explore", "who waits for whom and how long, under many schedules"),
    "what-if": Command(DESIGN, "sdd.design.what_if", "which changes of a design save most, in words and milliseconds"),
    "shrink": Command(DESIGN, "sdd.design.shrink", "the least workload whose report still has a line"),
    "from-sql": Command(DESIGN, "sdd.design.from_sql", "a catalogue and a workload from a plain subset of SQL"),
    "grade": Command(TEACH, "sdd.teach.grade", "a report of another SDD-1, judged part by part, with the rule that it breaks"),
    "exercise": Command(TEACH, "sdd.teach.exercise", "twelve exercises that judge what is handed in"),
    "to-elle": Command(JUDGE, "sdd.judge.to_elle", "a report as a history that a checker of isolation levels reads"),
    "check-history": Command(JUDGE, "sdd.judge.check_history", "whether such a history is serializable"),
    "plant-faults": Command(JUDGE, "sdd.judge.plant_faults", "how many planted faults these two find"),
    "all-orders": Command(JUDGE, "sdd.judge.all_orders", "a report judged by trying every order"),
    "find-broken": Command(JUDGE, "sdd.judge.find_broken", "a schedule that goes wrong where one rule is broken"),
    "history": Command(JUDGE, "sdd.judge.history_command", "a workload run on your own database, and what it replied"),
    "judge": Command(JUDGE, "sdd.judge.judge_command", "whether the history of any database is serializable"),
    "make-workload": Command(MAKE, "sdd.bench.make_workload", "made workloads, and those of known applications"),
}


def help_text():
    lines = ["sdd: a replicated database that keeps a serial history without locks, as a simulator", "",
             "    sdd WORD ..        sdd WORD --help        sdd --version"]
    for group in (RUN, LOOK, DESIGN, JUDGE, TEACH, MAKE):
        of_group = [(word, x.does) for word, x in COMMANDS.items() if x.group == group]
        lines += ["", group] * bool(of_group) + ["    %-14s %s" % x for x in of_group]
    return "\n".join(lines)


def call(word, words):
    """Calls the command of this word; what it reads and refuses has the name `sdd WORD`."""
    sys.argv = ["sdd " + word] + words
    start(importlib.import_module(COMMANDS[word].module).main)


def main(words):
    write_plainly()
    if not words:
        print(help_text(), file=sys.stderr)
        return REFUSED
    if words[0] in ("-h", "--help", "help"):
        if words[1:2] and words[1] in COMMANDS:
            return call(words[1], ["--help"])
        print(help_text())
        return 0
    if words[0] in ("--version", "version"):
        print("\n".join(version_lines()))
        return 0
    if words[0] == "--commands":        # for completions of shells
        print("\n".join("%s\t%s" % (word, x.does) for word, x in COMMANDS.items()))
        return 0
    if words[0] not in COMMANDS:
        guess = difflib.get_close_matches(words[0], COMMANDS, 1, 0.6)
        print("sdd: there is no command %s; %s" % (words[0], "did you mean %s?" % guess[0] if guess else "`sdd --help` lists them"), file=sys.stderr)
        return REFUSED
    return call(words[0], words[1:])


def run():
    """What an installed `sdd` calls."""
    sys.exit(main(sys.argv[1:]))
