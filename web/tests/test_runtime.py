#!/usr/bin/env python3
"""Tries runtime.c by itself: arithmetic on 128 bits beside Python's, and blocks of memory that keep what is written.

    web/tests/test_runtime.py [--seed K]

It needs the kit's clang, wasm-ld and node, and takes a second.
"""
import os
import random
import sys
import tempfile

HERE = os.path.dirname(os.path.abspath(__file__))
sys.path.insert(0, os.path.join(HERE, ".."))

from modules import COMPILED, Refused, clang_of, compile_runtime, kit_folder, link, run  # noqa: E402
from node import Node  # noqa: E402

from sdd.command import count, parser, start  # noqa: E402
from sdd.model.files import BadInput  # noqa: E402

BITS, HALF = 2**128, 2**64
EDGES = [0, 1, 2, 3, HALF - 1, HALF, HALF + 1, BITS - 1, BITS // 2, BITS // 2 - 1, 10**18, 10**19, 10**38]
NUMBERS = 300

PROGRAM = """// Made by test_runtime.py.
typedef unsigned long size;
typedef unsigned __int128 wide;
typedef struct { size is_good, at; } Memory;
extern Memory rattle_alloc(size, size);
extern Memory rattle_realloc(unsigned char *, size, size, size);
extern void rattle_dealloc(unsigned char *);
extern long write(int, const void *, size);
extern wide __multi3(wide, wide);
extern wide __udivti3(wide, wide);
extern wide __ashlti3(wide, int);
extern wide __lshrti3(wide, int);

#define W(high, low) ((wide)(high) << 64 | (low))
static const struct { wide a, b, product, quotient, left, right; int by; } table[] = {
%(table)s
};

static int fails(const char *what, size length) {
  write(1, what, length);
  return 1;
}

static int arithmetic(void) {
  for (size k = 0; k < sizeof table / sizeof *table; k++) {
    if (__multi3(table[k].a, table[k].b) != table[k].product) return fails("product", 7);
    if (table[k].b && __udivti3(table[k].a, table[k].b) != table[k].quotient) return fails("quotient", 8);
    if (__ashlti3(table[k].a, table[k].by) != table[k].left) return fails("left", 4);
    if (__lshrti3(table[k].a, table[k].by) != table[k].right) return fails("right", 5);
  }
  return 0;
}

enum { BLOCKS = 200, STEPS = 20000 };
static struct { unsigned char *at; size length; unsigned char mark; } blocks[BLOCKS];
static size state = %(seed)d;

static size drawn(size below) {
  state = state * 6364136223846793005ul + 1442695040888963407ul;
  return (state >> 33) %% below;
}

static int keeps(size k, size length) {
  for (size i = 0; i < length; i++) if (blocks[k].at[i] != blocks[k].mark) return 0;
  return 1;
}

static void fill(size k) {
  blocks[k].mark = (unsigned char)drawn(256);
  for (size i = 0; i < blocks[k].length; i++) blocks[k].at[i] = blocks[k].mark;
}

static int memory(void) {
  for (int step = 0; step < STEPS; step++) {
    size k = drawn(BLOCKS), length = drawn(drawn(20) ? 300 : 60000);
    if (blocks[k].at && !keeps(k, blocks[k].length)) return fails("block", 5);
    if (blocks[k].at && drawn(2)) {
      Memory grown = rattle_realloc(blocks[k].at, blocks[k].length, length, 1);
      if (!grown.is_good) return fails("no memory", 9);
      blocks[k].at = (unsigned char *)grown.at;
      if (!keeps(k, length < blocks[k].length ? length : blocks[k].length)) return fails("grown", 5);
    } else {
      rattle_dealloc(blocks[k].at);
      Memory made = rattle_alloc(length, 1);
      if (!made.is_good || made.at %% 16) return fails("made", 4);
      blocks[k].at = (unsigned char *)made.at;
    }
    blocks[k].length = length;
    fill(k);
  }
  if (rattle_alloc(1ul << 60, 1).is_good) return fails("too much", 8);
  return 0;
}

// The name that clang gives to `main`, without the aliases that it makes for one in C: they would bring a table.
int all(void) __asm__("__original_main");
int all(void) {
  return arithmetic() || memory() || __builtin_wasm_memory_size(0) > 1200;
}
"""


def spelled(number):
    return "W(%dul, %dul)" % divmod(number, HALF)


def row(rng, a, b):
    by = rng.choice([0, 1, 63, 64, 65, 127, rng.randrange(128)])
    results = [a, b, a * b % BITS, a // b if b else 0, (a << by) % BITS, a >> by]
    return "  {%s, %d}," % (", ".join(map(spelled, results)), by)


def table(rng):
    for a in EDGES:
        yield from (row(rng, a, b) for b in EDGES)
    for _ in range(NUMBERS):
        yield row(rng, rng.randrange(2**rng.randrange(1, 129)), rng.randrange(2**rng.randrange(1, 129)))


def main():
    asked = parser(__doc__)
    asked.add_argument("--seed", metavar="K", type=count, default=1)
    asked = asked.parse_args()
    rng = random.Random(asked.seed)
    try:
        clang = clang_of(kit_folder())
        with tempfile.TemporaryDirectory(prefix="test-runtime-") as room, Node() as node:
            text, program, runtime, module = (os.path.join(room, x) for x in ("t.c", "t.o", "r.o", "t.wasm"))
            with open(text, "w", encoding="utf-8") as f:
                f.write(PROGRAM % {"table": "\n".join(table(rng)), "seed": asked.seed})
            run([clang, *COMPILED, "-ffreestanding", "-nostdlib", text, "-o", program])
            compile_runtime(clang, runtime)
            link([program, runtime], module)
            status, err, out = node.program(module).answer([], {})
    except Refused as fault:
        raise BadInput(str(fault)) from None
    print("runtime.c: %s" % ("good" if status == 0 else "WRONG: status %d %s %s" % (status, out.decode(), err.decode())))
    return 1 if status else 0


if __name__ == "__main__":
    start(main)
