"""What the scripts of this folder take from the rest of the repository, and where it lies."""
import os
import subprocess
import sys

HERE = os.path.dirname(os.path.abspath(__file__))
ROOT = os.path.normpath(os.path.join(HERE, ".."))
EXAMPLES = os.path.join(ROOT, "examples")
CASES = os.path.join(ROOT, "crates", "sdd_cases")
PACKAGE = os.path.join(ROOT, "python")
PAGE = os.path.join(PACKAGE, "sdd", "view", "parts")                # the parts of the page of a run

for folder in (os.path.join(ROOT, "tests"), os.path.join(ROOT, "tools"), PACKAGE):
    if folder not in sys.path:
        sys.path.insert(1, folder)

from sdd.model.files import BadInput  # noqa: E402


def commit():
    """The commit of the checkout, with some words where its crates aren't those of the commit."""
    def git(*words):
        return subprocess.run(["git", "-C", ROOT, *words], stdout=subprocess.PIPE, stderr=subprocess.DEVNULL, check=True).stdout.decode().strip()
    try:
        changed = ", with changes in crates" if git("status", "--porcelain", "--", "crates") else ""
        return git("rev-parse", "--short=12", "HEAD") + changed
    except (OSError, subprocess.CalledProcessError):
        raise BadInput("git tells no commit of %s" % ROOT) from None
