#!/usr/bin/env python3
"""Refuses each allocation of a call of `sdd1` in turn, and says how the calls ended.

    tools/refuse_allocations.py --program FILE [--step N] WORD ..

    tools/refuse_allocations.py --program crates/sdd1/out/sdd1 run bank.toml bank.work

FILE is a built program and WORD .. are its words. The call is made once with all its memory. Then for
each N from 1 to the number of its allocations it is made twice more: once the Nth allocation alone is
refused, and once the Nth and all later ones are. Each of these calls must end with the whole text and
status 0, or with `no memory` on standard error, nothing on standard output and status 8. A call that
ends in another way is reported, and the script ends with status 1.

The allocations are refused by a small library that is compiled with cc and preloaded (LD_PRELOAD): it
counts the calls of malloc, calloc and realloc from the start of the process. --step N tries every Nth
allocation alone, for calls that make many.
"""
import argparse
import os
import shutil
import subprocess
import sys
import tempfile

LIBRARY = r"""
#define _GNU_SOURCE
#include <stddef.h>
#include <stdlib.h>
#include <unistd.h>

extern void *__libc_malloc(size_t);
extern void *__libc_calloc(size_t, size_t);
extern void *__libc_realloc(void *, size_t);
extern void __libc_free(void *);

static long made, first = -1, last;
static int counting, reported;

static long number_in(const char *name, long otherwise) {
    const char *word = getenv(name);
    return word && *word ? atol(word) : otherwise;
}

static int is_refused(void) {
    if (first < 0) {
        first = number_in("REFUSE_FROM", 0);
        last = number_in("REFUSE_TO", 0);
        counting = getenv("COUNT_TO") != NULL;
    }
    made += 1;
    return first && made >= first && made <= last;
}

void *malloc(size_t size) { return is_refused() ? NULL : __libc_malloc(size); }
void *calloc(size_t count, size_t size) { return is_refused() ? NULL : __libc_calloc(count, size); }
void *realloc(void *old, size_t size) { return is_refused() ? NULL : __libc_realloc(old, size); }
void free(void *old) { __libc_free(old); }          /* or a program with another allocator would free with that */

__attribute__((destructor)) static void tell(void) {
    char digits[24];
    int at = sizeof digits;
    long left = made;
    if (!counting || reported++) return;
    do { digits[--at] = '0' + left % 10; left /= 10; } while (left);
    if (write((int)number_in("COUNT_TO", 2), digits + at, sizeof digits - at) < 0) return;
}
"""

WHOLE, OUT_OF_MEMORY = "whole text", "no memory"


class BadCall(Exception):
    """Why nothing can be tried."""


class Parser(argparse.ArgumentParser):
    """Refuses words in one line."""

    def error(self, message):
        self.exit(2, "refuse_allocations.py: %s\n" % message)


def compiled(folder):
    """The library, built in the folder."""
    source, built = os.path.join(folder, "refuse.c"), os.path.join(folder, "refuse.so")
    with open(source, "w", encoding="ascii", newline="\n") as f:
        f.write(LIBRARY)
    if shutil.which("cc") is None:
        raise BadCall("cc is missing")
    done = subprocess.run(["cc", "-O1", "-shared", "-fPIC", "-o", built, source], stderr=subprocess.PIPE, check=False)
    if done.returncode:
        raise BadCall("cc fails: " + done.stderr.decode(errors="replace").strip().split("\n")[0])
    return built


def called(command, library, settings, kept=()):
    """The status, standard output and standard error of one call."""
    environment = dict(os.environ, LD_PRELOAD=library, **settings)
    done = subprocess.run(command, env=environment, stdout=subprocess.PIPE, stderr=subprocess.PIPE, pass_fds=kept, timeout=600, check=False)
    return done.returncode, done.stdout, done.stderr


def counted(command, library):
    """How many allocations the call makes, and its text."""
    reading, writing = os.pipe()
    try:
        status, text, reported = called(command, library, {"COUNT_TO": str(writing)}, (writing,))
    finally:
        os.close(writing)
    with os.fdopen(reading, "rb") as f:
        count = f.read()
    if status:
        raise BadCall("with all its memory the call ends with status %d: %s" % (status, reported.decode(errors="replace").strip()))
    if not count:
        raise BadCall("no allocation was counted: the program isn't linked with the system's C library")
    return int(count), text


def ending(command, library, text, start, end):
    """How the call ends where the allocations from START to END are refused."""
    status, out, err = called(command, library, {"REFUSE_FROM": str(start), "REFUSE_TO": str(end)})
    if (status, out, err) == (0, text, b""):
        return WHOLE
    if (status, out, err) == (8, b"", b"no memory\n"):
        return OUT_OF_MEMORY
    return "status %d, %d bytes, %r" % (status, len(out), err.decode(errors="replace")[:40])


def tried(command, step, library):
    """Prints a line for each way of refusing; false where some call ended otherwise."""
    count, text = counted(command, library)
    right = True
    for name, last in (("alone", lambda n: n), ("and all later", lambda n: 2**62)):
        ends = {WHOLE: 0, OUT_OF_MEMORY: 0}
        for n in range(1, count + 1, step):
            how = ending(command, library, text, n, last(n))
            ends[how] = ends.get(how, 0) + 1
            if how not in (WHOLE, OUT_OF_MEMORY):
                print("allocation %d of %d %s: %s" % (n, count, name, how), flush=True)
                right = False
        print("%d allocations, the Nth %s: %s" % (count, name, ", ".join("%s %d" % (how, ends[how]) for how in ends)), flush=True)
    return right


def main():
    parser = Parser(description=__doc__, formatter_class=argparse.RawDescriptionHelpFormatter)
    parser.add_argument("--program", required=True, metavar="FILE", help="a built program")
    parser.add_argument("--step", type=int, default=1, metavar="N", help="try every Nth allocation alone")
    parser.add_argument("words", nargs="+", metavar="WORD", help="its words")
    given = parser.parse_args()
    program = os.path.abspath(given.program)
    try:
        if not os.access(program, os.X_OK) or not os.path.isfile(program):
            raise BadCall("%s is no program" % given.program)
        if given.step < 1:
            raise BadCall("--step wants a number from 1 on")
        with tempfile.TemporaryDirectory() as folder:
            return 0 if tried([program] + given.words, given.step, compiled(folder)) else 1
    except (BadCall, OSError, subprocess.TimeoutExpired) as fault:
        print("refuse_allocations.py: %s" % fault, file=sys.stderr)
        return 2


if __name__ == "__main__":
    sys.exit(main())
