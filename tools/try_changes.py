#!/usr/bin/env python3
"""Changes the reference by a word, one change at a time, and says which case of the gate refuses it.

    tools/try_changes.py [GROUP ..] [--jobs N]

What a definition says is pinned by what is expected of the program. Each change of tools/changes is such as a
definition and the code that meets it could make together. The reference is copied and changed at one place, and
what is expected of the cases (tools/make_cases.py) is computed again; the worked logs are taken as calls of `run`.
A change is refused where a case expects something else: printed are the first two that do. It ends with 1 where a
change is refused by none and isn't said to be unseen, or is refused though it is said to be.

A file of tools/changes is a group: `commands WORD ..` names the commands whose cases are asked, and each change has
`change NAME`, `file NAME` of python/sdd, lines `-TEXT` that stand there once, lines `+TEXT` in their place,
and, where no case can show it, `unseen WHY`. Some minutes of one processor for all groups.
"""
import concurrent.futures
import json
import os
import shutil
import subprocess
import sys
import tempfile

import sdd_path  # noqa: F401
from sdd.command import count, parser, start
from sdd.model.files import BadInput

TOP = os.path.dirname(os.path.dirname(os.path.abspath(__file__)))
CHANGES = os.path.join(TOP, "tools", "changes")
SIZES = ["limits.cases"]        # cases of sizes, which no change is of
LONGEST = 60_000                # bytes of a case's files, likewise
SHOWN = 2


class Change:
    """A place of the reference, and what stands there instead."""

    def __init__(self, name):
        self.name, self.file, self.unseen, self.old, self.new = name, "", "", [], []

    def take(self, line):
        if line[0] in "-+":
            (self.old if line[0] == "-" else self.new).append(line[1:])
            return
        key, _, value = line.partition(" ")
        if key not in ("file", "unseen"):
            raise BadInput("%s: no line of a change: %s" % (self.name, line))
        setattr(self, key, value)

    def make(self, folder):
        path = os.path.join(folder, self.file)
        with open(path, encoding="utf-8") as f:
            text = f.read()
        times = text.count("\n".join(self.old))
        if times != 1:
            raise BadInput("%s: what it changes stands %d times in %s" % (self.name, times, self.file))
        with open(path, "w", encoding="utf-8") as f:
            f.write(text.replace("\n".join(self.old), "\n".join(self.new)))


def read_group(name):
    """The commands of a group, and its changes."""
    commands, changes = [], []
    with open(os.path.join(CHANGES, name + ".txt"), encoding="utf-8") as f:
        for line in f.read().split("\n"):
            if line.startswith("commands "):
                commands = line.split(" ")[1:]
            elif line.startswith("change "):
                changes.append(Change(line[7:]))
            elif line and not line.startswith("#"):
                changes[-1].take(line)
    return commands, changes


# The answers of one reference, in a process of its own, which imports the copy.

def cases_of(commands):
    """The cases of these commands whose answers the reference gives, and the worked logs as calls of `run`."""
    import make_cases
    from log_examples import LOGS
    for case in make_cases.read_all(make_cases.kept_texts(), SIZES):
        size = sum(len(x) for x in case.files.values())
        if not case.expected and set(case.call()[:1]) & set(commands) and size <= LONGEST:
            yield case
    for log in LOGS if "run" in commands else ():
        if len(log) == 5:       # not one whose modules begin with different rows, which no workload has
            case = make_cases.Case("worked log " + log[0])
            case.words, case.files = ["run", "cat", "work"], {"cat": log[3].encode(), "work": log[4].encode()}
            yield case


def answer_lines(outside, case):
    import make_cases
    try:
        return make_cases.expected_lines(outside, case)
    except (NameError, AttributeError, ImportError):
        raise                       # the change is no program
    except Exception as fault:      # it stops the reference here: that is another answer
        return ["stopped by " + type(fault).__name__]


def tell_answers(commands, known):
    """Prints the answers; or, beside known ones, the names of the first cases that answer otherwise."""
    import make_cases
    outside, answers, other = make_cases.Outside(None), {}, []
    for case in cases_of(commands):
        answers[case.name] = answer_lines(outside, case)
        other += [case.name] if known and known[case.name] != answers[case.name] else []
        if len(other) == SHOWN:
            break
    json.dump(other if known else answers, sys.stdout)


def answers_of(commands, known, change=None):
    """What such a process tells: of the copy of the reference with the change."""
    with tempfile.TemporaryDirectory(prefix="changed-") as room:
        for name in ("python", "tools"):
            shutil.copytree(os.path.join(TOP, name), os.path.join(room, name), ignore=shutil.ignore_patterns("__pycache__"))
        for name in ("crates", "examples"):
            os.symlink(os.path.join(TOP, name), os.path.join(room, name))
        if change:
            change.make(os.path.join(room, "python", "sdd"))
        script = os.path.join(room, "tools", os.path.basename(__file__))
        words = [sys.executable, "-B", script, "--answers", ",".join(commands), "--known", known or ""]
        done = subprocess.run(words, stdout=subprocess.PIPE, check=True)
        return json.loads(done.stdout)


# All changes.

def judge(change, cases):
    """How a change came off, in words, and whether that is as it should be."""
    if cases:
        return "refused by " + "; ".join(cases), not change.unseen
    return ("unseen: " + change.unseen if change.unseen else "REFUSED BY NONE"), bool(change.unseen)


def try_group(name, pool, room):
    """Prints how each change of a group came off; how many there are, and how many as they shouldn't."""
    commands, changes = read_group(name)
    known = os.path.join(room, name)
    with open(known, "w", encoding="utf-8") as f:
        json.dump(answers_of(commands, None), f)
    bad = 0
    for change, cases in zip(changes, pool.map(lambda x: answers_of(commands, known, x), changes)):
        words, good = judge(change, cases)
        bad += not good
        print("%s: %s: %s" % (name, change.name, words), flush=True)
    return len(changes), bad


def main():
    asked = parser(__doc__)
    asked.add_argument("groups", metavar="GROUP", nargs="*")
    asked.add_argument("--jobs", metavar="N", type=count, default=1)
    asked.add_argument("--answers", metavar="COMMANDS", help="what the script asks of itself")
    asked.add_argument("--known", metavar="FILE", help="the same")
    asked = asked.parse_args()
    if asked.answers:
        known = json.load(open(asked.known, encoding="utf-8")) if asked.known else None
        tell_answers(asked.answers.split(","), known)
        return 0
    groups = asked.groups or sorted(x[:-4] for x in os.listdir(CHANGES))
    with tempfile.TemporaryDirectory(prefix="answers-") as room, concurrent.futures.ThreadPoolExecutor(max(1, asked.jobs)) as pool:
        counts = [try_group(x, pool, room) for x in groups]
    print("%d changes, %d not as they should be" % (sum(x for x, _ in counts), sum(x for _, x in counts)))
    return 1 if any(bad for _, bad in counts) else 0


if __name__ == "__main__":
    start(main)
