"""The runs of docs/TUTORIAL.md and README.md print what these pages show.

A block between ``` that follows commands shows lines of what the last of them printed, in their order; lines may be left
out. Pages, the server and pictures are left out, and a block that shows a file is compared with the file.
"""
import glob
import os
import re
import shutil
import subprocess
import sys
import tempfile
import unittest

import sdd_path  # noqa: F401
from sdd.model.files import text_of
from sdd.programs import ROOT

LEFT_OUT = ("alias sdd", "sdd page", "sdd play", "sdd picture")
HEAD = 'sdd() { "$PYTHON" "$ROOT/sdd" "$@"; }\n'
BLOCK = re.compile(r"^```\n(.*?)^```$|((?:^ {4}[^\n]*\n)+)", re.DOTALL | re.MULTILINE)


def parts_of(text):
    """Commands, as one script a group, and the blocks that show something, in their order."""
    for found in BLOCK.finditer(text):
        if found[1] is not None:
            yield "shown", found[1]
        elif re.match(r" {4}(python3 )?(sdd|grep|python3) ", found[2]):
            yield "commands", re.sub(r"^ {4}", "", found[2], flags=re.M)


def stands_in(lines, others):
    """Whether the lines stand among the others in this order."""
    rest = iter(others)
    return all(any(x == y for y in rest) for x in lines)


@unittest.skipUnless(shutil.which("bash"), "there is no bash")
class Pages(unittest.TestCase):
    def setUp(self):
        self.room = tempfile.TemporaryDirectory()
        self.addCleanup(self.room.cleanup)
        self.files = [text_of(x).split("\n") for x in glob.glob(os.path.join(ROOT, "examples", "**", "*"), recursive=True)
                      if os.path.basename(x) in ("workload", "report", "advice", "catalogue.toml")]

    def run_script(self, script):
        kept = "\n".join(x for x in script.split("\n") if not x.startswith(LEFT_OUT)).replace("/tmp/", self.room.name + "/").replace("python3 sdd", "sdd")
        done = subprocess.run(["bash", "-c", HEAD + kept], cwd=ROOT, stdout=subprocess.PIPE, stderr=subprocess.PIPE,
                              env={**os.environ, "PATH": os.defpath, "PYTHON": sys.executable, "ROOT": ROOT})
        self.assertNotIn(b"Traceback", done.stderr)
        return done.stdout.decode().split("\n")

    def check(self, name, least):
        printed, compared = [], 0
        for kind, text in parts_of(text_of(os.path.join(ROOT, name))):
            if kind == "commands":
                printed = self.run_script(text)
                continue
            lines = text.rstrip("\n").split("\n")
            if not any(stands_in(lines, x) for x in [printed] + self.files):
                self.assertTrue(lines[0].startswith("error["), "%s shows what isn't printed:\n%s" % (name, text))
            compared += 1
        self.assertGreaterEqual(compared, least)

    def test_tutorial(self):
        self.check(os.path.join("docs", "TUTORIAL.md"), 16)

    def test_front_page(self):
        self.check("README.md", 2)
        shown = re.search(r"^```\n(error\[.*?)^```$", text_of(os.path.join(ROOT, "README.md")), re.DOTALL | re.MULTILINE)[1]
        workload = text_of(os.path.join(ROOT, "examples", "bridge", "workload")).replace("submit look", "submit lok")
        path = os.path.join(self.room.name, "workload")
        with open(path, "w", encoding="utf-8", newline="\n") as f:
            f.write(workload)
        done = subprocess.run([sys.executable, os.path.join(ROOT, "sdd"), "run", "-q", os.path.join(ROOT, "examples", "bridge", "catalogue.toml"), "workload"],
                              cwd=self.room.name, stdout=subprocess.PIPE, stderr=subprocess.PIPE)
        self.assertEqual(done.stderr.decode(), shown)


if __name__ == "__main__":
    unittest.main()
