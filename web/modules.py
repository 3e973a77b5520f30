#!/usr/bin/env python3
"""Compiles programs of the repository to WebAssembly (memory64), without their proof.

    web/modules.py INTO [CRATE ..]

INTO is a folder, which gets CRATE.wasm for each crate, and CRATE.commit with the commit of which it was made; without
crates these are sdd1 and sdd1_inside. A crate takes some four minutes of a processor. The module is caught and freed of
the checks of `rt try` as tools/build_unproved.py does it, compiled for wasm64 by the kit's clang, and linked with
runtime.c by `wasm-ld`, which is found by its name or given by WASM_LD in the environment (Debian: apt-get install lld-19).
"""
import os
import shutil
import tempfile
import time

from repository import HERE, ROOT, commit

from build_unproved import clang_of, plain_text
from link_program import Refused, kit_folder, run
from sdd.command import parser, start
from sdd.model.files import BadInput

PROGRAMS = ["sdd1", "sdd1_inside"]
TARGET = "wasm64-unknown-unknown"
LAYOUT = "e-m:e-p:64:64-p10:8:8-p20:8:8-i64:64-i128:128-f128:64-n32:64-S128-ni:1:10:20"      # of clang for the target
COMPILED = ["--no-default-config", "--target=" + TARGET, "-O2", "-c"]
RUNTIME = ["-ffreestanding", "-fno-builtin", "-nostdlib", "-mbulk-memory", "-Wall", "-Werror"]
STACK = 1 << 20             # bytes; natively an eighth of it is enough
EXPORTED = ["room", "add_word", "add_file", "go"]
LINKED = ["-mwasm64", "--no-entry", "--export-memory", "-z", "stack-size=%d" % STACK, "--gc-sections", "-s"]
LINKERS = ["wasm-ld", "wasm-ld-22", "wasm-ld-21", "wasm-ld-20", "wasm-ld-19"]
LEAST_LINKER = 19           # earlier ones don't read what the kit's clang writes


def linker():
    given = os.environ.get("WASM_LD")
    for name in [given] if given else LINKERS:
        path = shutil.which(name)
        if path and (given or version_of(path) >= LEAST_LINKER):
            return path
    raise Refused("no wasm-ld of LLVM %d or later: apt-get install lld-%d, or set WASM_LD" % (LEAST_LINKER, LEAST_LINKER))


def version_of(path):
    words = run([path, "--version"]).split()
    return int(words[words.index("LLD") + 1].split(".")[0]) if "LLD" in words else 0


def for_browsers(text, made):
    """Writes the module's text anew, for another machine: its own two lines that name one are replaced."""
    with open(text, "rb") as lines, open(made, "wb") as out:
        out.write(('target datalayout = "%s"\ntarget triple = "%s"\n' % (LAYOUT, TARGET)).encode())
        for line in lines:
            if not line.startswith((b"target triple", b"target datalayout")):
                out.write(line)


def compile_runtime(clang, made):
    run([clang, *COMPILED, *RUNTIME, os.path.join(HERE, "runtime.c"), "-o", made])


def link(objects, into):
    run([linker(), *LINKED, *("--export=" + x for x in EXPORTED), *objects, "-o", into])


def build(crate, into):
    clang = clang_of(kit_folder())
    with tempfile.TemporaryDirectory(prefix="web-modules-") as room:
        text, program, runtime = (os.path.join(room, x) for x in ("web.ll", "program.o", "runtime.o"))
        for_browsers(plain_text(crate, room, False), text)
        run([clang, *COMPILED, "-x", "ir", text, "-o", program])
        compile_runtime(clang, runtime)
        link([program, runtime], into)


def main():
    asked = parser(__doc__)
    asked.add_argument("into", metavar="INTO")
    asked.add_argument("crates", metavar="CRATE", nargs="*")
    asked = asked.parse_args()
    crates = asked.crates or PROGRAMS
    unknown = [x for x in crates if not os.path.isfile(os.path.join(ROOT, "crates", x, "src", "main.rt"))]
    if unknown:
        raise BadInput("crates/%s is no program" % unknown[0])
    linker()                            # refused before the minutes that a crate takes
    os.makedirs(asked.into, exist_ok=True)
    for crate in crates:
        begin, into, made_of = time.monotonic(), os.path.join(asked.into, crate + ".wasm"), commit()
        build(crate, into)
        with open(os.path.join(asked.into, crate + ".commit"), "w", encoding="utf-8") as f:
            f.write(made_of + "\n")
        print("%s: %d bytes, %.0f s" % (into, os.path.getsize(into), time.monotonic() - begin), flush=True)


if __name__ == "__main__":
    start(main)
