"""What `sdd --version` prints: the version, the commit where it is known, and which programs answer.

The gate's script of installation, tools/install.sh, leaves a file beside the programs that says of which commit and by
which kit they were built, and whose malloc they have; tools/make_pyz.py leaves the commit in a file of the package.
"""
import os
import shutil
import subprocess
import sys

from sdd import __version__
from sdd.programs import PACKAGE, ROOT, built, found, named, own_command

COMMIT = os.path.join(PACKAGE, "commit")        # in a package that isn't in a clone
NAMES = ("sdd1", "sdd1_inside", "sdd1_ask")


def output_of(*command):
    """What a command prints, or nothing."""
    try:
        done = subprocess.run(command, stdout=subprocess.PIPE, stderr=subprocess.DEVNULL, timeout=20)
    except (OSError, subprocess.TimeoutExpired):
        return ""
    return done.stdout.decode(errors="replace").strip() if done.returncode == 0 else ""


def commit_of_package():
    if os.path.exists(os.path.join(ROOT, "crates.txt")):
        return output_of("git", "-C", ROOT, "describe", "--always", "--dirty")
    try:
        return __loader__.get_data(COMMIT).decode().strip()
    except OSError:
        return ""


def note_of(program):
    """What the file beside an installed program says: its commit and its kit."""
    path = os.path.join(os.path.dirname(os.path.dirname(program)), "share", "sdd1", os.path.basename(program))
    try:
        with open(path, encoding="utf-8") as f:
            return ", ".join(f.read().split("\n")[:-1])
    except OSError:
        return ""


def line_of(name):
    """Of one of the programs: where it is, whether it is proved, and of what it was built."""
    words = found(name)
    if words is None:
        return "%s: %s" % (name, named(own_command("reference")))
    kind = "unproved" if words[0].endswith("-unproved") else "proved"
    note = note_of(words[0])
    if words[0] == built(name):
        kit = output_of("rt", "version").split("\n")[0] if shutil.which("rt") else ""
        note = ", ".join(x for x in ("built in this clone", kit) if x)
    return "%s: %s, %s%s" % (name, words[0], kind, note and "; " + note)


def version_lines():
    commit = commit_of_package()
    return ["sdd %s%s" % (__version__, " (%s)" % commit if commit else ""), *map(line_of, NAMES),
            "python: %s" % sys.version.split()[0]]
