#!/usr/bin/env python3
"""Writes the input of the program of cases and the output that it must give.

    tools/make_cases.py [--check] [--reference COMMAND] [--into FOLDER]

What a case should print the reference of this repository says (reference/), or COMMAND, a program that
takes the words of `sdd1` and the files that they name. FOLDER is crates/sdd_cases where it isn't given.
With --check nothing is written: it ends with 1 where a file of FOLDER is another than it would write, and
tells the first line. No text comes from the program itself: what the reference can't answer (calls of a
shelf or a sink that fail) follows from the rules at `Outside`, or stands in the case.

What a person edits is tools/cases:

catalogues/               texts that cases name, as those of crates/sdd1/data
calls.txt                 a call a line: `plain own.toml put_and_query.work`; a file of examples/ is named
                          with its folder: `run bridge/catalogue.toml bridge/workload`; `inside` in the
                          place of a command is a call of `sdd1_inside`
workloads.txt             `NAME | CATALOGUE | COMMAND .. | LINE / LINE ..`, a case for each command, and
                          for `inside` likewise
catalogue_faults.txt      `NAME | CATALOGUE | FAULT | OLD => NEW`, the catalogue with its first OLD
                          replaced, `NAME | CATALOGUE | FAULT | + LINE / LINE ..` with lines behind it,
                          or `NAME | - | FAULT | LINE / LINE ..` with nothing else
workload_faults.txt       `NAME | CATALOGUE | FAULT | LINE / LINE ..`
robust.txt                `NAME | CATALOGUE | ANSWER | LINE / LINE ..`, a workload of `robust` of `sdd1_ask`,
                          and what is answered, written by hand
controls.txt              `NAME | FAULT | LINE / LINE ..`, a file of transaction control
*.cases                   cases as the program reads them; behind a case, lines `expect LINE` have the
                          answer that is written by hand, LINE as the program prints it

A FAULT is what is reported, as `line 2: BadNumber`, or `accepted`; the script stops where the reference
tells another, and so for an ANSWER. The format that the program reads is described in crates/sdd_cases/src/main.rt.
"""
import argparse
import os
import sys

from answers import NoProgram
from case_answers import Outside, expected_lines

TOP = os.path.join(os.path.dirname(os.path.abspath(__file__)), "..")
CASES = os.path.join(TOP, "tools", "cases")
EXAMPLES = os.path.join(TOP, "examples")
KEPT = [os.path.join(TOP, "crates", "sdd1", "data"), os.path.join(CASES, "catalogues")]
INSIDE = "sdd1_inside"


class Case:
    """What a case asks, as the program reads it."""

    def __init__(self, name):
        self.name = name
        self.lines = []         # as they stand in the input
        self.program = "sdd1"
        self.words = []
        self.files = {}         # name -> bytes
        self.numbers = {}
        self.each = ""
        self.expected = []      # lines written by hand

    def number(self, key, without):
        return self.numbers.get(key, without)

    def call(self):
        """The words by which the reference is asked."""
        return ["inside"] + self.words if self.program == INSIDE else self.words


def piece(line):
    """The bytes that a line of a text stands for."""
    if line.startswith("*"):
        times, rest = line[1:].split(" ", 1)
        return piece(rest) * int(times)
    if line.startswith("|"):
        return line[1:].encode() + b"\n"
    if line.startswith(">"):
        return line[1:].encode()
    if line.startswith("="):
        return bytes.fromhex(line[1:])
    raise ValueError(line)


def text_lines(data):
    """Lines that spell the bytes."""
    try:
        pieces = data.decode().split("\n")
    except UnicodeDecodeError:
        return ["=" + data.hex()]
    whole = ["|" + x for x in pieces[:-1]]
    return whole + ([">" + pieces[-1]] if pieces[-1] else [])


def take(case, kept, line):
    """Adds a line of a `.cases` file to the case."""
    key, _, value = line.partition(" ")
    if key == "expect":
        case.expected.append(value)
        return
    case.lines.append(line)
    if key == "program":
        case.program = value
    elif key == "words":
        case.words = value.split(" ")
    elif key == "text":
        case.last = value
        case.files[value] = b""
    elif key == "file":
        name, _, text = value.partition(" ")
        case.files[name] = kept[text]
    elif key == "each":
        case.each = value
    elif line[0] in "|>=*":
        case.files[case.last] += piece(line)
    else:
        case.numbers[key] = int(value)


def read_cases(path, kept):
    cases = []
    with open(path, encoding="utf-8") as f:
        for line in f.read().split("\n"):
            if not line or line.startswith("#"):
                if cases and line:
                    cases[-1].lines.append(line)
            elif line.startswith("case "):
                cases.append(Case(line[5:]))
            else:
                take(cases[-1], kept, line)
    return cases


def made(name, lines, kept, fault=None):
    """The case of these lines, and what is reported of it."""
    case = Case(name)
    for line in lines:
        take(case, kept, line)
    case.fault = fault
    return case


def call_lines(command, names):
    """The lines of a call on files of these names."""
    if command == "inside":
        return ["program " + INSIDE, "words " + " ".join(names)]
    return ["words " + " ".join([command] + names)]


def read_calls(path, kept):
    cases = []
    with open(path, encoding="utf-8") as f:
        for line in f.read().split("\n"):
            if line and not line.startswith("#"):
                command, *names = line.split(" ")
                lines = call_lines(command, names) + ["file %s %s" % (x, x) for x in names if x in kept]
                cases.append(made(line, lines, kept))
    return cases


def table(path, columns=4):
    with open(path, encoding="utf-8") as f:
        for line in f.read().split("\n"):
            if line and not line.startswith("#"):
                yield line.split(" | ", columns - 1)


def joined(text):
    """`LINE / LINE ..`, each with its newline; nothing where the text is empty."""
    return "".join(x + "\n" for x in text.split(" / ")) if text else ""


def read_catalogue_faults(path, kept):
    cases = []
    for name, base, fault, edit in table(path):
        data = "" if base == "-" else kept[base].decode()
        if base == "-" or edit.startswith("+ "):
            data += joined(edit if base == "-" else edit[2:])
        else:
            old, new = edit.split(" => ")
            if old not in data:
                sys.exit("%s: %r doesn't stand in %s" % (name, old, base))
            data = data.replace(old, new, 1)
        lines = ["words check cat", "text cat"] + text_lines(data.encode())
        cases.append(made("catalogue: " + name, lines, kept, "" if fault == "accepted" else "catalogue: " + fault))
    return cases


def read_workloads(path, kept):
    cases = []
    for name, base, commands, work in table(path):
        for command in commands.split(" "):
            lines = call_lines(command, ["cat", "work"]) + ["file cat " + base, "text work"] + ["|" + x for x in work.split(" / ")]
            cases.append(made("%s: %s" % (command, name), lines, kept))
    return cases


def read_workload_faults(path, kept):
    cases = []
    for name, base, fault, edit in table(path):
        lines = ["words plain cat work", "file cat " + base, "text work"] + ["|" + x for x in edit.split(" / ")]
        cases.append(made("workload: " + name, lines, kept, "" if fault == "accepted" else "workload: " + fault))
    return cases


def read_robust(path, kept):
    cases = []
    for name, base, text, work in table(path):
        lines = ["program sdd1_ask", "words robust cat work", "file cat " + base, "text work"] + ["|" + x for x in work.split(" / ")]
        cases.append(made("robust: " + name, lines, kept))
        cases[-1].text = ["|" + x for x in ("snapshot isolation: " + text).split(" / ")]
    return cases


def read_controls(path, kept):
    cases = []
    for name, fault, text in table(path, 3):
        lines = ["words control script", "text script"] + ["|" + x for x in text.split(" / ")]
        cases.append(made("control: " + name, lines, kept, "" if fault == "accepted" else "workload: " + fault))
    return cases


def check_answer(case, lines):
    """The fault or the text that a table has is what the reference tells."""
    text = getattr(case, "text", None)
    if text is not None and lines[1:] != text:
        sys.exit("%s: the table has %r, the reference %r" % (case.name, text, lines[1:]))
    fault = getattr(case, "fault", None)
    if fault is None:
        return
    reported = [x[1:] for x in lines if x.startswith("!")]
    if reported != ([fault] if fault else []):
        sys.exit("%s: the table has %r, the reference %r" % (case.name, fault, reported))


def kept_texts():
    """The texts that cases may name: each file of the folders, and the inputs of each example."""
    paths = {name: os.path.join(folder, name) for folder in KEPT for name in sorted(os.listdir(folder))}
    for example in sorted(os.listdir(EXAMPLES)):
        for name in ("catalogue.toml", "workload"):
            path = os.path.join(EXAMPLES, example, name)
            if os.path.exists(path):
                paths[example + "/" + name] = path
    kept = {}
    for name, path in paths.items():
        with open(path, "rb") as f:
            kept[name] = f.read()
    return kept


def read_all(kept, but=()):
    """All cases, in the order in which they are written; but for those of some files that end in .cases."""
    cases = read_calls(os.path.join(CASES, "calls.txt"), kept)
    cases += read_workloads(os.path.join(CASES, "workloads.txt"), kept)
    cases += read_catalogue_faults(os.path.join(CASES, "catalogue_faults.txt"), kept)
    cases += read_workload_faults(os.path.join(CASES, "workload_faults.txt"), kept)
    cases += read_robust(os.path.join(CASES, "robust.txt"), kept)
    cases += read_controls(os.path.join(CASES, "controls.txt"), kept)
    for name in sorted(os.listdir(CASES)):
        if name.endswith(".cases") and name not in but:
            cases += read_cases(os.path.join(CASES, name), kept)
    return cases


def made_files(cases, kept, outside):
    """The lines of the program's input, and those of what it should print."""
    given = ["# Made by tools/make_cases.py from tools/cases."]
    want = []
    used = {x.split(" ")[2] for case in cases for x in case.lines if x.startswith("file ")}
    for name, data in kept.items():
        if name in used:
            given += ["", "keep " + name] + text_lines(data)
    for case in cases:
        lines = expected_lines(outside, case)
        check_answer(case, lines)
        given += ["", "case " + case.name] + case.lines
        want += ["case " + case.name] + lines
    return {"stdin": given, "stdout": want}


def compare(path, lines):
    """Ends where the file has other lines."""
    with open(path, encoding="utf-8", newline="") as f:
        stands = f.read().split("\n")
    wanted = lines + [""]
    if stands != wanted:
        k = next((k for k, (a, b) in enumerate(zip(stands, wanted)) if a != b), min(len(stands), len(wanted)))
        sys.exit("%s: line %d would be another: %s" % (path, k + 1, (wanted[k:k + 1] or ["none"])[0]))


def asked_wrongly(fault):
    print("make_cases.py: %s" % fault, file=sys.stderr)
    sys.exit(2)


def main():
    asked = argparse.ArgumentParser(description=__doc__, formatter_class=argparse.RawDescriptionHelpFormatter, usage=argparse.SUPPRESS)
    asked.add_argument("--check", action="store_true")
    asked.add_argument("--reference", metavar="COMMAND")
    asked.add_argument("--into", metavar="FOLDER", default=os.path.join(TOP, "crates", "sdd_cases"))
    asked = asked.parse_args()
    kept = kept_texts()
    cases = read_all(kept)
    try:
        outside = Outside(asked.reference)
    except NoProgram as fault:
        asked_wrongly(fault)
    for name, lines in made_files(cases, kept, outside).items():
        path = os.path.normpath(os.path.join(asked.into, name))
        if asked.check:
            compare(path, lines)
            continue
        with open(path, "w", encoding="utf-8", newline="\n") as f:
            f.write("".join(x + "\n" for x in lines))
    print("%d cases, %d runs of the reference" % (len(cases), len(outside.known)))


if __name__ == "__main__":
    main()
