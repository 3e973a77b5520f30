#!/usr/bin/env python3
"""Makes each case of the gate a call of a built `sdd1`, and compares status, error line and text with the reference.

    tools/try_cases.py --program COMMAND

A case whose files are cut is a call for each cut. Left out are cases of other programs, and shelves and sinks that fail, which
no call has. The gate runs all cases within one program; this tries a program as it is installed. It prints each difference,
and ends with 1 where there is one; it takes half a minute.
"""
import sdd_path  # noqa: F401
import make_cases
from answers import NoProgram, Program, reference_answer
from sdd.command import parser, start
from sdd.model.files import BadInput


def fronts(case):
    """The files of each run of a case: those that are cut, once for each cut."""
    kind, _, name = case.each.partition(" ")
    if kind not in ("cut", "cut-byte"):
        yield case.files
        return
    data = case.files[name]
    pieces = data.splitlines(keepends=True) if kind == "cut" else [data[k:k + 1] for k in range(len(data))]
    for k in range(len(pieces) + 1):
        yield {**case.files, name: b"".join(pieces[:k])}


def calls(program):
    """The name, the words and the files of each call of this program."""
    for case in make_cases.read_all(make_cases.kept_texts()):
        if case.program == program:
            yield from ((case.name, case.words, files) for files in fronts(case))


def difference(call, program):
    """What the program answers otherwise, in one line; or None."""
    name, words, files = call
    wanted, got = reference_answer(words, files), program.answer(words, files)
    if got == wanted:
        return None
    return "%s: status %s, %d bytes, %r in place of status %s, %d bytes, %r" % (
        name, got[0], len(got[2]), got[1][:200], wanted[0], len(wanted[2]), wanted[1][:200])


def main():
    asked = parser(__doc__)
    asked.add_argument("--program", metavar="COMMAND", required=True, help="a built `sdd1`")
    asked = asked.parse_args()
    try:
        program = Program("the program", asked.program)
    except NoProgram as fault:
        raise BadInput(str(fault)) from None
    tried = different = 0
    for call in calls("sdd1"):
        found, tried = difference(call, program), tried + 1
        if found:
            different += 1
            print(found, flush=True)
    print("%d calls, %d different" % (tried, different))
    return 1 if different else 0


if __name__ == "__main__":
    start(main)
