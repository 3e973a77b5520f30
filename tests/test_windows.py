"""Plays Windows: what `sdd` writes has LF alone, also where a text file is written with CR LF unless it is asked otherwise.

A process in which `open` and the standard streams write CR LF, as they do there, calls the commands; whoever names his
line ends, or writes bytes, isn't concerned.
"""
import json
import os
import subprocess
import sys
import tempfile
import unittest

import sdd_path  # noqa: F401
from sdd.programs import ROOT

PLAYED = '''
import builtins, io, json, os, sys
own = io.open
def opened(file, mode="r", buffering=-1, encoding=None, errors=None, newline=None, closefd=True, opener=None):
    if "b" not in mode:
        newline = "\\r\\n" if newline is None and set(mode) & set("wax+") else newline
        encoding = encoding or "cp1252"
    return own(file, mode, buffering, encoding, errors, newline, closefd, opener)
builtins.open = io.open = opened
sys.path.insert(0, sys.argv[1])
from sdd.cli import main
for words in json.load(sys.stdin):
    for stream in (sys.stdout, sys.stderr):
        stream.reconfigure(encoding="cp1252", newline="\\r\\n")
    sys.argv = ["sdd"]
    try:
        status = main(words)
    except SystemExit as ended:
        status = ended.code
    if status:
        sys.exit("%s: status %s" % (words, status))
for stream in (sys.stdout, sys.stderr):
    stream.reconfigure(encoding="cp1252", newline="\\r\\n")
print("the play is one")
with open("played", "w") as f:
    f.write("the play is one" + chr(10))
'''
CAT, WORK, REPORT = (os.path.join(ROOT, "examples", "two_protocols", x) for x in ("catalogue.toml", "workload", "report"))
PRINTED = [["run", CAT, WORK], ["table", CAT], ["verify", CAT, WORK, REPORT], ["run", "--json", CAT, WORK], ["explain", "limit"], ["--version"],
           ["--help"], ["picture", REPORT, CAT], ["reference", "inside", CAT, WORK], ["to-elle", REPORT, WORK, CAT], ["graph-picture", CAT]]
WRITTEN = [
    ["make-workload", "bank", "20", "--into", "bank"], ["run", "bank/catalogue.toml", "bank/workload"],
    ["from-sql", os.path.join(ROOT, "examples", "sql", "bank.sql"), "--into", "sql"], ["run", "sql/catalogue.toml", "sql/workload"],
    ["explore", CAT, WORK, "--runs", "3", "--picture", "explore.svg"], ["shrink", CAT, WORK, "--keep", "order", "--into", "small"],
    ["page", CAT, WORK, "--into", "page.html"], ["picture", REPORT, CAT, "--into", "run.svg"],
    ["graph-picture", os.path.join(ROOT, "examples", "ycsb", "catalogue.toml"), "--into", "graph.svg"],
    ["to-elle", REPORT, WORK, CAT, "--into", "history"]]


class PlayedWindows(unittest.TestCase):
    def setUp(self):
        self.room = tempfile.TemporaryDirectory()
        self.addCleanup(self.room.cleanup)

    def play(self, calls):
        """What the calls print; the line that tells of the play itself has CR LF, and no other."""
        done = subprocess.run([sys.executable, "-c", PLAYED, os.path.join(ROOT, "python")], cwd=self.room.name, env={**os.environ, "PATH": "/nowhere"},
                              input=json.dumps(calls).encode(), stdout=subprocess.PIPE, stderr=subprocess.PIPE)
        self.assertEqual(done.returncode, 0, done.stderr.decode(errors="replace"))
        printed, _, rest = done.stdout.partition(b"the play is one")
        self.assertEqual(rest, b"\r\n")
        self.assertNotIn(b"\r", printed)
        self.assertNotIn(b"\r", done.stderr)
        return printed

    def test_what_is_printed(self):
        with open(REPORT, "rb") as f:
            self.assertTrue(self.play(PRINTED).startswith(f.read()))

    def test_what_is_written(self):
        self.play(WRITTEN)
        files = {os.path.join(at, name) for at, _, names in os.walk(self.room.name) for name in names}
        for path in files:
            with open(path, "rb") as f:
                self.assertEqual(b"\r" in f.read(), path.endswith("played"), path)
        self.assertGreaterEqual(len(files), 12)


if __name__ == "__main__":
    unittest.main()
