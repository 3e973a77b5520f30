#!/usr/bin/env python3
"""Writes the command `sdd` as one file, which any Python from 3.11 on runs: `python3 sdd.pyz --help`.

    tools/make_pyz.py [INTO]

INTO is sdd.pyz if left out. The same package gives the same bytes, on each machine and at each time.
"""
import os
import zipfile

import sdd_path  # noqa: F401
from sdd.command import parser, start
from sdd.programs import PACKAGE
from sdd.version import commit_of_package

BEGIN = """\
import sys

if sys.version_info < (3, 11):
    sys.exit("sdd: Python 3.11 or later is needed; this is %d.%d" % sys.version_info[:2])

from sdd.cli import run

run()
"""
LEFT_OUT = ("__pycache__", ".mypy_cache")


def contents():
    """The names of the archive's files, and their bytes."""
    yield "__main__.py", BEGIN.encode()
    commit = commit_of_package()
    if commit:
        yield "sdd/commit", (commit + "\n").encode()
    for at, folders, names in os.walk(PACKAGE):
        folders[:] = sorted(x for x in folders if x not in LEFT_OUT)
        for name in sorted(names):
            path = os.path.join(at, name)
            inside = os.path.relpath(path, os.path.dirname(PACKAGE)).replace(os.sep, "/")
            with open(path, "rb") as f:
                yield inside, f.read().replace(b"\r\n", b"\n")


def write_archive(into):
    with open(into, "wb") as f:
        f.write(b"#!/usr/bin/env python3\n")
        with zipfile.ZipFile(f, "w", zipfile.ZIP_DEFLATED) as archive:
            for name, content in contents():
                entry = zipfile.ZipInfo(name, (1980, 1, 1, 0, 0, 0))
                entry.compress_type, entry.external_attr = zipfile.ZIP_DEFLATED, 0o644 << 16
                archive.writestr(entry, content)
    os.chmod(into, 0o755)


def main():
    asked = parser(__doc__)
    asked.add_argument("into", metavar="INTO", nargs="?", default="sdd.pyz")
    asked = asked.parse_args()
    write_archive(asked.into)
    print("%s: %d bytes" % (asked.into, os.path.getsize(asked.into)))


if __name__ == "__main__":
    start(main)
