#!/usr/bin/env python3
"""Builds `sdd1` (or another program of the repository) optimised, without its proof, in some minutes.

    tools/build_unproved.py [--as-proved] [--libc] INTO [CRATE]

INTO is the file of the program; CRATE is `sdd1` if left out. Nothing is proved by this: it serves for trying and for
measuring. With --as-proved the tests of bounds are left out too, as the proof leaves them out: such a program takes about
as many instructions as the one that the proof builds, and does anything at all where a text that isn't proved indexes past
an end. Without it, it stops there, and takes a tenth more, for a catalogue twice as many.

`rt try` compiles a whole program to one module for clang, with checks that stop a program which breaks a contract.
This catches the module, takes those checks away, puts in the marks `#[inline(always)]` of the repository's functions,
which `rt try` leaves out, and compiles it with the compiler of the kit. It is linked as tools/link_program.py says,
whose word --libc is. It needs `rt` and `gcc`.
"""
import os
import re
import subprocess
import tempfile
import time

from link_program import Refused, kit_folder, link, run
from sdd.command import parser, start
from sdd.programs import ROOT

CHECKS = re.compile(rb"call void @\"rattle-llvm-checks::|llvm\.memset\.p0\.i64\(ptr %r[0-9]+, i8 -86,")
BOUNDS = re.compile(rb"call void @llvm\.trap\(\)")
MARKED = re.compile(r"#\[inline\(always\)\]\n(?:#\[.*\n)*(?:pub(?:\([a-z]+\))? )?fn (\w+)")
DEFINED = re.compile(rb'(define .*?@"([^"]+)"\(.*\) )(#[0-9]+ \{\n)')
FLAGS = ["-O3", "-march=x86-64", "-fno-vectorize", "-fno-slp-vectorize"]


def modules_in(folder):
    """The modules that lie below a folder now."""
    for at, _, names in os.walk(folder):
        for name in names:
            if name.endswith(".bc"):
                yield os.path.join(at, name)


def caught(crate, room):
    """The module of the program, which `rt try` makes in a folder that it removes when it ends."""
    inside = os.path.join(room, "inside")
    os.mkdir(inside)
    how = {"cwd": os.path.join(ROOT, "crates", crate), "env": {**os.environ, "TMPDIR": inside}}
    said = open(os.path.join(room, "said"), "w+b")
    try:
        tried = subprocess.Popen(["rt", "try", "--", "no", "such", "words"], stdin=subprocess.DEVNULL, stdout=said, stderr=said, **how)
    except OSError as fault:
        raise Refused("rt doesn't run: %s" % fault.strerror) from None
    kept = {}
    while tried.poll() is None:
        for path in modules_in(inside):
            try:
                number = os.stat(path).st_ino
                if number not in kept:
                    kept[number] = os.path.join(room, "%d.bc" % number)
                    os.link(path, kept[number])
            except OSError:
                pass
        time.sleep(0.1)
    found = [it for it in kept.values() if os.path.isfile(it)]
    if not found:
        said.seek(0)
        raise Refused("rt try made no module: %s" % said.read().decode(errors="replace")[-400:].strip())
    return max(found, key=os.path.getsize)


def clang_of(kit):
    return os.path.join(kit, "toolchain", "bin", "clang")


def marked():
    """The functions of the repository that the text marks `#[inline(always)]`, by their names in a module."""
    crates, found = os.path.join(ROOT, "crates"), set()
    for at, _, names in os.walk(crates):
        for name in (it for it in names if it.endswith(".rt")):
            crate, src, *path = os.path.relpath(os.path.join(at, name), crates).removesuffix(".rt").split(os.sep)
            if src == "src":
                with open(os.path.join(at, name), encoding="utf-8") as f:
                    found.update("::".join([crate, *path, it]) for it in MARKED.findall(f.read()))
    return found


def with_mark(line, names):
    """A line of a module, with the mark of its function, which `rt try` leaves out and the proof's build has."""
    begins = DEFINED.fullmatch(line)
    if begins and begins.group(2).split(b"::<")[0].decode() in names:
        return begins.group(1) + b"alwaysinline " + begins.group(3)
    return line


def plain_text(crate, room, as_proved):
    """The program's module as a text for clang, in a file of the folder ROOM, without the checks of `rt try`."""
    module, names = caught(crate, room), marked()
    text, plain = (os.path.join(room, it) for it in ("m.ll", "plain.ll"))
    run([clang_of(kit_folder()), "-x", "ir", module, "-S", "-emit-llvm", "-Xclang", "-disable-llvm-passes", "-o", text])
    with open(text, "rb") as lines, open(plain, "wb") as out:
        for line in lines:
            if not CHECKS.search(line) and not (as_proved and BOUNDS.search(line)):
                out.write(with_mark(line, names).replace(b" sanitize_address ", b" "))
    os.remove(text)
    return plain


def build(crate, into, as_proved, with_libc):
    """Writes the program; returns whose malloc it has."""
    with tempfile.TemporaryDirectory(prefix="build-unproved-") as room:
        plain, made = plain_text(crate, room, as_proved), os.path.join(room, "plain.o")
        run([clang_of(kit_folder()), "--no-default-config", "-x", "ir", plain, *FLAGS, "-c", "-o", made])
        return link(made, into, with_libc)


def main():
    asked = parser(__doc__)
    asked.add_argument("--as-proved", action="store_true", help="without the tests of bounds")
    asked.add_argument("--libc", action="store_true", help="with libc's malloc, though mimalloc is there")
    asked.add_argument("into", metavar="INTO")
    asked.add_argument("crate", metavar="CRATE", nargs="?", default="sdd1")
    asked = asked.parse_args()
    if not os.path.isfile(os.path.join(ROOT, "crates", asked.crate, "src", "main.rt")):
        raise Refused("crates/%s is no program" % asked.crate)
    into = os.path.abspath(asked.into)
    os.makedirs(os.path.dirname(into), exist_ok=True)
    print("%s: malloc of %s" % (into, build(asked.crate, into, asked.as_proved, asked.libc)))


if __name__ == "__main__":
    start(main)
