"""What the commands of tools/ share: their help, and refusals in one line with status 2.

    asked = parser(__doc__)
    ..
    if __name__ == "__main__":
        start(main)
"""
import argparse
import os
import shlex
import subprocess
import sys

from sdd.model.files import BadInput
from sdd.model.reading import RefusedFile

REFUSED = 2


def parser(text):
    """A reader of the command line whose help is the text, and which refuses in one line."""
    return argparse.ArgumentParser(description=text, formatter_class=argparse.RawDescriptionHelpFormatter, usage=argparse.SUPPRESS)


def count(word):
    """A whole number from 0 on, as a word of a command line."""
    number = int(word)
    if number < 0:
        raise ValueError
    return number


count.__name__ = "count"            # what argparse calls it where it refuses a word


def describe_fault(fault):
    """What is wrong, in one line."""
    if isinstance(fault, OSError) and fault.filename is not None:
        return "%s: %s" % (fault.filename, (fault.strerror or "can't be used").lower())
    return " ".join(str(fault).split())


def parts_of(command):
    """The program and the words of a command that somebody gave as one text."""
    try:
        parts = shlex.split(command)
    except ValueError as fault:
        raise BadInput("%s is no command: %s" % (command, fault)) from None
    if not parts:
        raise BadInput("the command is empty")
    return parts


def run_outside(command, words=(), **more):
    """Runs a command, one text or a list of words; what it prints is bytes."""
    parts = parts_of(command) if isinstance(command, str) else list(command)
    try:
        return subprocess.run(parts + list(words), stdout=subprocess.PIPE, stderr=subprocess.PIPE, **more)
    except OSError as fault:
        raise BadInput("%s doesn't run: %s" % (parts[0], (fault.strerror or "fault").lower())) from None


def write_plainly():
    """Makes all that is printed UTF-8 with LF alone, also where a system is used to another spelling."""
    for stream in (sys.stdout, sys.stderr):
        if hasattr(stream, "reconfigure"):
            stream.reconfigure(encoding="utf-8", errors="backslashreplace", newline="\n")


def judge(what, wrong, faults, none):
    """Prints the lines that say what is wrong, and last of `what` that there are so many `faults`, or that there is none; the status."""
    for line in wrong:
        print(line)
    print("%s: %s" % (what, "%d %s" % (len(wrong), faults) if wrong else none))
    return 1 if wrong else 0


def start(main):
    """Calls `main`, and ends with its status; what it refuses is reported in one line, and a refused file with its place."""
    name = os.path.basename(sys.argv[0])
    write_plainly()
    try:
        status = main()
        sys.stdout.flush()
    except BrokenPipeError:
        os.dup2(os.open(os.devnull, os.O_WRONLY), sys.stdout.fileno())
        status = 1
    except RefusedFile as refused:
        from sdd.explain.refusals import print_refusal, refusal
        print_refusal(refusal(refused.fault.line, refused.path, refused.data, refused.fault.cause))
        status = REFUSED
    except (BadInput, OSError) as fault:
        print("%s: %s" % (name, describe_fault(fault)), file=sys.stderr)
        status = REFUSED
    except KeyboardInterrupt:
        status = 130
    sys.exit(status or 0)
