"""Answers to calls of `sdd1`: a status, what is written to standard error, and what standard output is, as bytes.

The reference of this repository answers in this process; a program by a command, on files in a folder of its own.
"""
import os
import shlex
import shutil
import subprocess
import tempfile

import sdd_path  # noqa: F401
from sdd.reference.commands import answer

ROOM = "/dev/shm" if os.path.isdir("/dev/shm") else None
SECONDS = 120


class NoProgram(Exception):
    """Why a command doesn't run, in one line."""


def reference_answer(words, files):
    def read(name):
        if name not in files:
            raise FileNotFoundError(name)
        return files[name]
    status, reported, text = answer(words, read)
    return status, reported.encode(), text.encode("utf-8", "surrogateescape")


class Program:
    def __init__(self, name, command):
        self.name, self.command = name, shlex.split(command)
        first = self.command[0] if self.command else ""
        found = shutil.which(first)
        if found is None:
            raise NoProgram("%s: no such program" % (first or "''"))
        self.command[0] = os.path.abspath(found)

    def answer(self, words, files):
        with tempfile.TemporaryDirectory(prefix="sdd1-calls-", dir=ROOM) as room:
            for name, data in files.items():
                os.makedirs(os.path.dirname(os.path.join(room, name)), exist_ok=True)
                with open(os.path.join(room, name), "wb") as f:
                    f.write(data)
            try:
                done = subprocess.run(self.command + words, cwd=room, capture_output=True, timeout=SECONDS)
            except subprocess.TimeoutExpired:
                return "no answer in %d seconds" % SECONDS, b"", b""
            except OSError as fault:
                raise NoProgram("%s: %s" % (self.command[0], fault.strerror)) from None
        return done.returncode, done.stderr, done.stdout
