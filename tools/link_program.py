#!/usr/bin/env python3
"""Links the object of a program, as the gate or tools/build_unproved.py compiled it, with the kit's C libraries.

    tools/link_program.py [--libc] OBJECT INTO

INTO is the file of the program. All memory of a program comes from malloc, realloc and free of C. mimalloc (Debian:
apt-get install libmimalloc2.0) does these in half of libc's instructions or less; where gcc finds it, the program is linked
with it, and needs it when it runs. With --libc, or where gcc doesn't find it, libc does them. It prints whose they are.
It needs `rt` and `gcc`.
"""
import os
import subprocess

import sdd_path  # noqa: F401
from sdd.command import parser, start
from sdd.model.files import BadInput

QUICK = "libmimalloc.so.2"
LIBRARIES = ["liblibc_c.a", "libos_c.a"]


class Refused(BadInput):
    """Why there is no program."""


def run(words, **how):
    """What a command prints."""
    try:
        done = subprocess.run(words, stdout=subprocess.PIPE, stderr=subprocess.STDOUT, **how)
    except OSError as fault:
        raise Refused("%s doesn't run: %s" % (words[0], fault.strerror)) from None
    if done.returncode:
        raise Refused("%s: status %d: %s" % (os.path.basename(words[0]), done.returncode, done.stdout.decode(errors="replace")[-400:].strip()))
    return done.stdout.decode(errors="replace")


def kit_folder():
    return os.path.dirname(run(["rt", "doc"]).strip())


def quick_allocator():
    """The path of mimalloc, or None where gcc doesn't find it: then it prints the bare name."""
    path = run(["gcc", "-print-file-name=" + QUICK]).strip()
    return path if os.path.isabs(path) else None


def link(compiled, into, with_libc=False):
    """Writes the program; returns whose malloc it has."""
    kit, quick = kit_folder(), None if with_libc else quick_allocator()
    words = ["gcc", compiled, "-Wl,--start-group", *(os.path.join(kit, "c", x) for x in LIBRARIES), "-Wl,--end-group"]
    run(words + (["-Wl,--no-as-needed", quick, "-Wl,--as-needed"] if quick else []) + ["-o", into])
    return "mimalloc (%s)" % QUICK if quick else "libc"


def main():
    asked = parser(__doc__)
    asked.add_argument("--libc", action="store_true", help="with libc's malloc, though mimalloc is there")
    asked.add_argument("object", metavar="OBJECT")
    asked.add_argument("into", metavar="INTO")
    asked = asked.parse_args()
    print("malloc of %s" % link(asked.object, asked.into, asked.libc))


if __name__ == "__main__":
    start(main)
