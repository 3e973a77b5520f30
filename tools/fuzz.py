#!/usr/bin/env python3
"""Compares `sdd1` with the reference on random input, and cuts every difference down to a small one.

    tools/fuzz.py FROM TO [KIND ..] --program COMMAND [--other COMMAND] [--inside COMMAND] [--ask COMMAND] [--into FOLDER]

For each seed from FROM up to TO, without it, and each kind (all where none is named) a call is drawn: words and files.
The reference of this repository (`sdd reference`) answers it in this process, the program by COMMAND, and so may a third one.
Kind inside is for `sdd1_inside`, and is left out without --inside; kinds questions, certify and robust are for `sdd1_ask`, and are
left out without --ask.
An answer is a status, what is written to standard error, and what standard output is. Of a call with a difference lines are
taken away as long as there is one; what is left is printed, and with --into its files are kept in FOLDER. It ends with 1
where there was a difference.

Kinds: catalogue, faulty-catalogue, toml, plain, faulty-workload, run, lists, control, verify, make, words, inside, questions,
certify, robust.
"""
import argparse
import collections
import os
import random
import sys

from answers import NoProgram, Program, reference_answer
import random_calls


def difference(call, programs):
    """The program that answers otherwise, and both answers; or None."""
    wanted = reference_answer(*call)
    asked = call.program()
    for program in programs:
        if program.answers != asked:
            continue
        got = program.answer(call.words[1:] if asked == "inside" else call.words, call.files)
        if got != wanted:
            return program, wanted, got
    return None


def smaller(call):
    """The call with some lines less, the longest cuts first."""
    for name, data in call.files.items():
        lines = data.splitlines(keepends=True)
        size = len(lines)
        while size:
            for at in range(0, len(lines) - size + 1, max(1, size // 4)):
                yield call._replace(files={**call.files, name: b"".join(lines[:at] + lines[at + size:])})
            size = size // 2 if size > 8 else size - 1


def cut_down(call, programs, reported):
    """The call with lines taken away as long as the answers of this program differ."""
    tries = 0
    while True:
        for less in smaller(call):
            tries += 1
            found = difference(less, programs)
            if found:
                call, reported = less, found
                break
            if tries > 3000:
                return call, reported
        else:
            return call, reported


def show(seed, kind, call, reported):
    program, wanted, got = reported
    print("seed %d, kind %s: %s and the reference differ: %s" % (seed, kind, program.name, " ".join(call.words)))
    for name, data in call.files.items():
        print("--- %s\n%s" % (name, data.decode(errors="backslashreplace").rstrip("\n")))
    for who, (status, reported, text) in (("the reference", wanted), (program.name, got)):
        print("--- %s: status %s %s\n%s" % (who, status, reported.decode(errors="replace").strip(), text.decode(errors="replace")), end="")
    sys.stdout.flush()


def keep(folder, seed, kind, call):
    room = os.path.join(folder, "%s-%d" % (kind, seed))
    os.makedirs(room, exist_ok=True)
    for name, data in {**call.files, "words": " ".join(call.words).encode() + b"\n"}.items():
        with open(os.path.join(room, name), "wb") as f:
            f.write(data)


def main():
    asked = argparse.ArgumentParser(description=__doc__, formatter_class=argparse.RawDescriptionHelpFormatter, usage=argparse.SUPPRESS)
    asked.add_argument("first", type=int, metavar="FROM")
    asked.add_argument("end", type=int, metavar="TO")
    asked.add_argument("kinds", nargs="*", metavar="KIND")
    asked.add_argument("--program", metavar="COMMAND", help="sdd1, as built and proved: crates/sdd1/out/sdd1")
    asked.add_argument("--other", metavar="COMMAND", help="a third program that is compared too")
    asked.add_argument("--inside", metavar="COMMAND", help="sdd1_inside")
    asked.add_argument("--ask", metavar="COMMAND", help="sdd1_ask")
    asked.add_argument("--into", metavar="FOLDER", help="keeps the files of differences there")
    asked = asked.parse_args()
    try:
        programs = programs_asked(asked)
        counts, differ = compare(asked, programs)
    except NoProgram as fault:
        print("fuzz.py: %s" % fault, file=sys.stderr)
        return 2
    print("%d calls, %d differences: %s" % (sum(counts.values()), differ, ", ".join("%s %d" % x for x in counts.items())))
    return 1 if differ else 0


def programs_asked(asked):
    unknown = [k for k in asked.kinds if k not in random_calls.KINDS]
    if unknown:
        raise NoProgram("%s is no kind; kinds are %s" % (unknown[0], ", ".join(random_calls.KINDS)))
    given = (("the program", asked.program, "sdd1"), ("the other", asked.other, "sdd1"), ("sdd1_inside", asked.inside, "inside"),
             ("sdd1_ask", asked.ask, "ask"))
    programs = []
    for name, command, answers in given:
        if command is not None:
            programs.append(Program(name, command))
            programs[-1].answers = answers
    if not programs:
        raise NoProgram("give --program COMMAND, --other COMMAND, --inside COMMAND, or --ask COMMAND")
    return programs


def compare(asked, programs):
    """How many calls of each kind there were, and how many differed."""
    counts, differ = collections.Counter(), 0
    answered = {program.answers for program in programs}
    kinds = asked.kinds or [k for k in random_calls.KINDS if random_calls.OWN_PROGRAMS.get(k, "sdd1") in answered]
    for seed in range(asked.first, asked.end):
        for kind in kinds:
            call = random_calls.KINDS[kind](random.Random("%s %d" % (kind, seed)))
            counts[kind] += 1
            reported = difference(call, programs)
            if reported:
                differ += 1
                call, reported = cut_down(call, programs, reported)
                show(seed, kind, call, reported)
                if asked.into:
                    keep(asked.into, seed, kind, call)
    return counts, differ


if __name__ == "__main__":
    sys.exit(main())
