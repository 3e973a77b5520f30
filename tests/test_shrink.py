"""What is left of a run still has each line that was asked for, and its transactions their classes."""
import os
import subprocess
import sys
import tempfile
import unittest

import sdd_path  # noqa: F401
from sdd.reference.commands import answer, read_file

ROOT = os.path.join(os.path.dirname(os.path.abspath(__file__)), "..")
EXAMPLE = [os.path.join(ROOT, "examples", "two_protocols", x) for x in ("catalogue.toml", "workload")]


def shrunk(*words):
    with tempfile.TemporaryDirectory() as folder:
        done = subprocess.run([sys.executable, os.path.join(ROOT, "sdd"), "shrink", *EXAMPLE, "--into", folder, *words], capture_output=True, text=True)
        paths = [os.path.join(folder, x) for x in ("catalogue.toml", "workload")]
        return done, (answer(["run", *paths], read_file)[2] if done.returncode == 0 else "")


class Shrinks(unittest.TestCase):
    def test_one_line(self):
        _, report = shrunk("--keep", "wait tally")
        self.assertIn("wait tally#1", report)
        self.assertNotIn("down", report)

    def test_several_lines(self):
        _, report = shrunk("--keep", "wait tally", "--keep", "wait up")
        self.assertIn("wait tally#1", report)
        self.assertIn("wait up#1", report)

    def test_a_class_is_kept(self):
        report = shrunk("--keep", "wait up")[1]
        self.assertIn("start up#1 northward", report)
        self.assertIn("start up#1 -", shrunk("--keep", "wait up", "--any-class")[1])

    def test_a_line_that_is_not_there(self):
        done, _ = shrunk("--keep", "wait tally", "--keep", "reject tally")
        self.assertEqual(2, done.returncode)
        self.assertIn("no line of what `run` prints has reject tally", done.stderr)


if __name__ == "__main__":
    unittest.main()
