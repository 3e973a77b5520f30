"""The programs that answer: `sdd1`, `sdd1_inside` and `sdd1_ask`.

    program = Program(None)                 text = program.text(["run", catalogue, workload])
    programs = find_programs(None, None)    text = programs.tell_inside([catalogue, workload])

They are those that were given, where `reference` is the reference of this package; else the proved ones, built in this clone by the gate or installed; else an unproved
build that is installed; else the reference of this package, which needs Python alone and is slower.
"""
import glob
import os
import shlex
import shutil
import subprocess
import sys
from typing import NamedTuple

from sdd.command import run_outside
from sdd.model.files import BadInput

PACKAGE = os.path.dirname(os.path.abspath(__file__))
ROOT = os.path.dirname(os.path.dirname(PACKAGE))        # of the clone, where the package lies in one
COMMANDS = ["check", "graph", "table", "advise", "plain", "run", "verify", "control", "make"]
REFERENCE = "the reference"
MOST_SECONDS = 600
SAID: list[str] = []        # which programs are said to answer


class Outcome(NamedTuple):
    status: int
    text: str
    error: str              # what stands on standard error


class Refused(BadInput):
    """A line in which a program refuses a file."""


# Which programs there are.

def own_command(*words):
    """A command that runs this package again, in a process of its own."""
    archive = os.path.dirname(PACKAGE)
    return [sys.executable, archive if os.path.isfile(archive) else os.path.join(PACKAGE, "__main__.py"), *words]


def built(name):
    """The program that the gate built in this clone, or None where there is none or a source is newer."""
    program = os.path.join(ROOT, "crates", name, "out", name)
    if not os.access(program, os.X_OK):
        return None
    sources = glob.glob(os.path.join(ROOT, "crates", "*", "src", "**", "*.rt"), recursive=True)
    return program if os.path.getmtime(program) > max(map(os.path.getmtime, sources), default=0) else None


def found(name):
    """The words that begin a command of this program, proved or else not; None where there is none."""
    there = built(name) or shutil.which(name) or shutil.which(name + "-unproved")
    return [there] if there else None


def named(words):
    """A command as a reader knows it."""
    if words[:2] == own_command()[:2]:
        return REFERENCE
    return shlex.join(words) + (" (unproved)" if words[0].endswith("-unproved") else "")


def words_of(command, option):
    """The words of a command that was given, which must be there."""
    if command == "reference":
        return own_command("reference", *(["inside"] if option == "--inside" else []))
    words = shlex.split(command)
    if not words or shutil.which(words[0]) is None:
        raise BadInput("%s: no program %s" % (option, command))
    return [os.path.abspath(words[0]) if os.sep in words[0] else words[0]] + words[1:]


def report_by(what):
    print("%s: %s" % (os.path.basename(sys.argv[0]), what), file=sys.stderr)


def report_program(words):
    """Says which program answers, once."""
    line = "by %s" % (named(words) if words else REFERENCE)
    if line not in SAID:
        SAID.append(line)
        report_by(line)


# One program, asked many times.

class Program:
    """`sdd1`, however it is run. Where COMMAND is None it is looked for, and a line says what was found."""

    def __init__(self, command=None):
        self.command = None if command == "reference" else command if command is not None else found("sdd1")
        if command is None:
            report_program(self.command)

    def ask(self, words):
        """What the program answers to these words."""
        demand_files(words)
        if self.command is None:
            return asked_within(words)
        done = run_outside(self.command, words)
        return Outcome(done.returncode, done.stdout.decode(errors="replace"), done.stderr.decode(errors="replace"))

    def text(self, words):
        """The text that the program prints; any other status than 0 is refused."""
        return demand_text(self.ask(words), words)

    def ask_all(self, words, paths):
        """The answers to the words with each of the files in the place of `{}`."""
        return [self.ask([path if x == "{}" else x for x in words]) for path in paths]


def asked_within(words):
    """What the reference answers, in this process: one of its own takes longer than most runs."""
    from sdd.reference.commands import answer, read_file
    status, error, text = answer(list(words), read_file)
    return Outcome(status, text, error)


def demand_files(words):
    """Refuses words of `sdd1` whose files are missing."""
    if words[0] not in COMMANDS:
        raise BadInput("%s is no command of sdd1; these are %s" % (words[0], ", ".join(COMMANDS)))
    for word in words[1:] if words[0] != "make" else []:
        if word != "{}" and not os.path.isfile(word):
            raise BadInput("%s: no such file" % word)


def demand_text(outcome, words):
    if outcome.status:
        reported = outcome.error.strip().split("\n")[0] or "it printed nothing"
        raise BadInput("%s: status %d: %s" % (words[0], outcome.status, reported))
    return outcome.text


def run_program(command, words):
    """The text that `sdd1` prints for these words; COMMAND is None where none was given."""
    return Program(command).text(words)


def add_program(asked):
    """The option --program, which each command that runs `sdd1` has."""
    asked.add_argument("--program", metavar="COMMAND", help="a built `sdd1`, or `reference`")


# Both programs, for what shows the inside of a run.

class Programs(NamedTuple):
    sdd1: list              # the words that begin a command
    inside: list

    def tell(self, words, seconds=MOST_SECONDS):
        return output_of(self.sdd1 + words, seconds)

    def tell_inside(self, files, seconds=MOST_SECONDS):
        return output_of(self.inside + files, seconds)

    def named(self):
        """Which programs these are, in one line."""
        sdd1, inside = named(self.sdd1), named(self.inside)
        source = "reported by %s" % sdd1 if sdd1 == inside else "the report is made by %s, the events by %s" % (sdd1, inside)
        why = ": no sdd1_inside is built here or on the path" if inside == REFERENCE else ""
        return "%s: %s%s" % (os.path.basename(sys.argv[0]), source, why)


def output_of(command, seconds):
    try:
        done = subprocess.run(command, stdout=subprocess.PIPE, stderr=subprocess.PIPE, timeout=seconds)
    except subprocess.TimeoutExpired:
        raise BadInput("the run takes longer than %d seconds" % seconds) from None
    except OSError as fault:
        raise BadInput("%s doesn't run: %s" % (command[0], fault.strerror)) from None
    if done.returncode:
        fault = done.stderr.decode(errors="replace").strip().split("\n")[-1]
        raise Refused(fault or "%s ended with status %d" % (os.path.basename(command[0]), done.returncode))
    return done.stdout.decode()


def beside(sdd1, other):
    """The program `other` in the folder of an `sdd1`, by the same ending where its name has one."""
    folder, name = os.path.split(shutil.which(sdd1[0]))
    ending = name.removeprefix("sdd1") if name.startswith("sdd1") else ""
    there = (os.path.join(folder, other + x) for x in (ending, ""))
    return next(([x] for x in there if os.access(x, os.X_OK)), None)


def find_programs(program, inside):
    """The commands for `sdd1` and `sdd1_inside`: those given, those found, or the reference."""
    sdd1 = words_of(program, "--program") if program else found("sdd1") or own_command("reference")
    if inside:
        return Programs(sdd1, words_of(inside, "--inside"))
    near = own_command("reference", "inside") if program == "reference" else beside(sdd1, "sdd1_inside") if program else None
    return Programs(sdd1, near or found("sdd1_inside") or own_command("reference", "inside"))


def find_ask(program):
    """The words that begin a command of `sdd1_ask`: the one beside a given `sdd1`, the one found, or the reference."""
    if program == "reference":
        return own_command("reference")
    near = beside(words_of(program, "--program"), "sdd1_ask") if program else None
    return near or found("sdd1_ask") or own_command("reference")
