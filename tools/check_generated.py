#!/usr/bin/env python3
"""Checks that the files which scripts make are as the scripts make them now; half a minute of one processor.

    tools/check_generated.py [--write]

They are the cases of the gate, the worked logs, the reports and pictures of examples/, the picture of the layers, the
map of the proof, the tables of docs/CHECK.md, and the parts of the page in web/, where it is there. With --write they are made
anew. A check prints what differs, and ends with 1 where something does.
Nothing is needed but Python: reports come from the reference.
"""
import concurrent.futures
import os
import shutil
import subprocess
import sys
import tempfile

import sdd_path  # noqa: F401
from sdd.command import judge, parser, start
from sdd.model.files import bytes_of
from sdd.programs import ROOT

TOOLS = os.path.dirname(os.path.abspath(__file__))
DOCS = os.path.join(ROOT, "docs")
WEB = [os.path.join(ROOT, "web", "build.py"), os.path.join(ROOT, "web", "sdd1.html")]
THEMSELVES = [["make_cases.py"], ["write_log_examples.py"], ["write_inside_examples.py"], ["make_broken.py"], ["check_tables.py"],
              ["make_examples.py", "--program", "reference"]]


def run(script, *words):
    """The status of a script of this folder, and what it prints."""
    done = subprocess.run([sys.executable, os.path.join(TOOLS, script), *words], stdout=subprocess.PIPE, stderr=subprocess.STDOUT)
    return done.returncode, done.stdout.decode(errors="replace").strip()


def check_itself(script, *words):
    status, text = run(script, *words, "--check")
    return ["%s: %s" % (script, x) for x in text.split("\n")] if status else []


def check_made(name, made):
    """A file of docs/, compared with one that was made."""
    return [] if bytes_of(os.path.join(DOCS, name)) == bytes_of(made) else ["docs/%s differs" % name]


def check_maps(room):
    layers, page, picture = (os.path.join(room, x) for x in ("layers.svg", "PROOF.md", "proof.svg"))
    shutil.copyfile(os.path.join(DOCS, "PROOF.md"), page)
    for words in (["layers.py", "--into", layers], ["proof_map.py", "--into", page, "--picture", picture]):
        status, text = run(*words)
        if status:
            return ["%s: %s" % (words[0], text)]
    return check_made("layers.svg", layers) + check_made("PROOF.md", page) + check_made("proof.svg", picture)


def check_web():
    """The page with the programs, of which the parts that python/ and web/ have are compared."""
    if not os.path.exists(WEB[0]):
        return []
    done = subprocess.run([sys.executable, *WEB, "--check"], stdout=subprocess.PIPE, stderr=subprocess.STDOUT)
    return done.stdout.decode(errors="replace").strip().split("\n") if done.returncode else []


def write():
    for words in THEMSELVES:
        yield run(*words)
    yield run("layers.py", "--into", os.path.join(DOCS, "layers.svg"))
    yield run("proof_map.py", "--into", os.path.join(DOCS, "PROOF.md"), "--picture", os.path.join(DOCS, "proof.svg"))
    if check_web():
        yield subprocess.run([os.path.join(TOOLS, "web.sh"), "--page"]).returncode, ""


def main():
    asked = parser(__doc__)
    asked.add_argument("--write", action="store_true", help="make the files anew")
    asked = asked.parse_args()
    if asked.write:
        return max(status for status, _ in write())
    with tempfile.TemporaryDirectory(prefix="generated-") as room:
        with concurrent.futures.ThreadPoolExecutor() as pool:
            checks = [pool.submit(check_itself, *words) for words in THEMSELVES] + [pool.submit(check_maps, room), pool.submit(check_web)]
            wrong = [line for check in checks for line in check.result()]
    return judge("generated files", wrong, "differ; tools/check_generated.py --write makes them anew", "all as their scripts make them")


if __name__ == "__main__":
    start(main)
