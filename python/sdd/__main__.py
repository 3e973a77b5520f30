"""`python3 -m sdd`, and what a `sdd.pyz` begins with."""
import os
import sys

if sys.version_info < (3, 11):
    sys.exit("sdd: Python 3.11 or later is needed; this is %d.%d" % sys.version_info[:2])
if not __package__:         # called by its path, as one process of the package calls another
    sys.path[0] = os.path.join(os.path.dirname(os.path.abspath(__file__)), "..")

from sdd.cli import run  # noqa: E402

run()
