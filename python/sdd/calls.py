"""Prints what `sdd1`, `sdd1_inside` and `sdd1_ask` print.

    sdd check | graph | table | advise CAT        sdd run | plain | inside CAT WORK
    sdd verify CAT WORK REPORT                    sdd control FILE        sdd make SEED N
    sdd robust CAT [WORK]                         sdd needs CAT           sdd certify CAT WORK REPORT

CAT is a catalogue, WORK a workload (docs/FORMATS.md); `-` is standard input. The text is that of the program to the
byte, and so is the status, but that `verify` and `certify` end with 1 where the report is not serializable. A refusal of a
file is printed with its place there, marked, the cause, and what helps. With --json all but `advise`, `inside`, `control` and
`certify` print JSON (`inside` always does).

The program is that of --program (and --inside; for `robust`, `needs` and `certify` the `sdd1_ask` beside it); else the proved one,
where it is installed; else an unproved build; else the reference of this package, which needs Python alone and is slower. A
line says which, but with --quiet.
"""
import contextlib
import difflib
import os
import shutil
import subprocess
import sys
import tempfile

from sdd.command import parser
from sdd.explain.refusals import Given, print_refusal, refusal_of
from sdd.explain.rules import WITHOUT_FILE
from sdd.json_answers import SHOWN, as_json
from sdd.model.files import BadInput
from sdd.model.words import number_between
from sdd.programs import add_program, asked_within, find_ask, find_programs, named, report_by, report_program

NAMES = {"check": ["CAT"], "graph": ["CAT"], "table": ["CAT"], "advise": ["CAT"], "run": ["CAT", "WORK"], "plain": ["CAT", "WORK"],
         "inside": ["CAT", "WORK"], "robust": ["CAT", "[WORK]"], "needs": ["CAT"], "verify": ["CAT", "WORK", "REPORT"],
         "certify": ["CAT", "WORK", "REPORT"], "control": ["FILE"], "make": ["SEED", "N"]}
QUESTIONS = ("robust", "needs", "certify")
ASKS_WHY = ("snapshot isolation: not shown", "snapshot isolation: not robust", "snapshot isolation: unknown")
NOT_SERIALIZABLE = {"verify": b"no", "certify": b"serializable no"}


def member_of(name):
    """The member that has the word of a place; one between brackets may be left out."""
    return name.strip("[]").lower()


def read_words(word):
    asked = parser(__doc__)
    for name in NAMES[word]:
        asked.add_argument(member_of(name), metavar=name.strip("[]"), nargs="?" if name.startswith("[") else None)
    add_program(asked)
    asked.add_argument("--inside", metavar="COMMAND", help="a built `sdd1_inside`")
    asked.add_argument("--quiet", "-q", action="store_true", help="no line says which program it is")
    if word in SHOWN:
        asked.add_argument("--json", action="store_true", help="print JSON")
    return asked.parse_args()


# The files.

def demand_file(name):
    """Refuses the name of a file that can't be read, and says which one may be meant."""
    folder, last = os.path.split(name)
    if os.path.isdir(name):
        raise BadInput("%s: it is a folder" % name)
    if not os.path.exists(name):
        there = os.listdir(folder or ".") if os.path.isdir(folder or ".") else []
        guess = difflib.get_close_matches(last, there, 1, 0.6)
        raise BadInput("%s: no such file%s" % (name, "; did you mean %s?" % os.path.join(folder, guess[0]) if guess else ""))


def files_of(words, room):
    """The files as they are given to a program: standard input becomes a file."""
    if words.count("-") > 1:
        raise BadInput("standard input can be one of the files")
    files = []
    for name in words:
        if name != "-":
            demand_file(name)
        elif sys.stdin.isatty():
            raise BadInput("standard input is this terminal: redirect a file to it, or name the file")
        files.append(Given(os.path.join(room, "stdin") if name == "-" else name, "<stdin>" if name == "-" else name))
        if name == "-":
            with open(files[-1].path, "wb") as f:
                shutil.copyfileobj(sys.stdin.buffer, f)
    return files


# The call.

def program_of(word, asked):
    """The words that begin the program's command, and those that follow them."""
    if word in QUESTIONS:
        return find_ask(asked.program), [word]
    programs = find_programs(asked.program, asked.inside)
    return (programs.inside, []) if word == "inside" else (programs.sdd1, [word])


class Answer:
    """What a program says: its status, the text and the line on standard error, as bytes."""

    def __init__(self, status, text, error):
        self.status, self.text, self.error = status, text, error


def answer_of(command, words):
    """The program's answer; the reference answers in this process."""
    if named(command) == "the reference":
        outcome = asked_within(command[3:] + words)
        return Answer(outcome.status, outcome.text.encode("utf-8", "surrogateescape"), outcome.error.encode())
    try:
        done = subprocess.run(command + words, stdin=subprocess.DEVNULL, stdout=subprocess.PIPE, stderr=subprocess.PIPE)
    except OSError as fault:
        raise BadInput("%s doesn't run: %s" % (command[0], (fault.strerror or "fault").lower())) from None
    return Answer(done.returncode, done.stdout, done.stderr)


def refuse(answer, files):
    """Prints why the program refuses, as far as it can be known."""
    line = answer.error.decode(errors="replace").strip().split("\n")[-1]
    if line.startswith(("catalogue: ", "workload: ")):
        print_refusal(refusal_of(line, files))
    else:
        report_by("%s%s" % (line, ": " + WITHOUT_FILE[line] if line in WITHOUT_FILE else "") if line else "status %d" % answer.status)
    return answer.status


def main():
    word = sys.argv[0].split(" ")[-1]
    asked = read_words(word)
    words = [given for given in (getattr(asked, member_of(name)) for name in NAMES[word]) if given is not None]
    if word == "make" and (number_between(words[0], 0, 2**31 - 1) is None or number_between(words[1], 0, 2048) is None):
        raise BadInput("SEED is a whole number from 0 to 2147483647, and N one from 0 to 2048")
    with tempfile.TemporaryDirectory(prefix="sdd-") as room:
        files = files_of(words, room) if word != "make" else []
        program, rest = program_of(word, asked)
        if not asked.quiet and not (asked.inside if word == "inside" else asked.program):
            report_program(program)
        answer = answer_of(program + rest, [x.path for x in files] or words)
        if answer.status:
            return refuse(answer, files[:2])            # a refusal is of the catalogue or the workload, and never of a report
        if not asked.quiet and (hint := hint_at(word, answer.text.decode(errors="replace"))):
            report_by(hint)
        text = as_json(word, answer.text.decode()).encode() if getattr(asked, "json", False) else answer.text
    return put(text) or int(word in NOT_SERIALIZABLE and answer.text.startswith(NOT_SERIALIZABLE[word]))


def hint_at(word, text):
    """Where an answer leads to a further question, what to ask; else nothing."""
    first = text.partition("\n")[0]
    if word == "robust" and first in ASKS_WHY:
        return "what that means, and what helps: sdd explain \"%s\"" % first
    if word == "advise" and " P3\n" in text:
        return "on one ordinary database snapshot isolation gives each read P2; `sdd robust` asks whether that is enough where this says P3"
    return None


def put(text):
    """Writes bytes as they are; the status 7 where standard output takes only a part."""
    try:
        sys.stdout.buffer.write(text)
        sys.stdout.buffer.flush()
    except BrokenPipeError:
        raise
    except OSError:
        with contextlib.suppress(OSError):
            os.dup2(os.open(os.devnull, os.O_WRONLY), 1)        # or what is left would be written at the end
        report_by("write fault: " + WITHOUT_FILE["write fault"])
        return 7
    return 0
