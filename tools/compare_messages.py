#!/usr/bin/env python3
"""Compares `decode` and `encode` of sdd_wire with tools/messages.py, on random messages.

    tools/compare_messages.py COUNT [SEED]

COUNT messages are made from SEED (0 where it isn't given) by the form of their fields; in two thirds
of them bytes are then changed, cut off, put in or put behind, so that most of these break the
spelling. Of each is compared where it is bad, or the fields and the bytes that spell them again, as
`tell` of the program below does. That program is built once and run unproved, by `rt try`, in a
folder of its own. Each difference is printed, and a last line 'N same (M read), K different'.
"""
import argparse
import os
import random
import re
import struct
import subprocess
import sys
import tempfile

import messages

TOP = os.path.realpath(os.path.join(os.path.dirname(os.path.abspath(__file__)), ".."))
CRATES = ["sdd_base", "sdd_history", "sdd_wire"]
BATCH = 500

PROGRAM = r"""
#![tactic(auto)]

use anyhow::Result;
use sdd_base::{Change, Cond, Op, Restriction, Row, Use, Value};
use sdd_wire::{decode, encode, Msg, WireFault};
use std::alloc::Global;
use std::io::{self, BufWriter, Write};

fn main(rt: HostRuntime) -> Result<()> {
    let alloc = rt.alloc();
    let lines = io::read_to_string(alloc, rt.reader())?;
    let mut out = BufWriter::new(alloc, io::writer(&rt))?;
    for line in lines.as_str().lines() {
        let bytes = hex::decode(alloc, line)?;
        match decode(alloc, bytes.as_slice()) {
            Ok(msg) => {
                tell(alloc, &mut out, &msg)?;
                match encode(alloc, &msg) {
                    Ok(again) => writeln!(out, " = {}", hex::encode(alloc, again.as_slice())?)?,
                    Err(_) => writeln!(out, " no memory")?,
                }
            }
            Err(WireFault::Bad(place)) => writeln!(out, "bad {place}")?,
            Err(WireFault::NoMemory) => writeln!(out, "no memory")?,
        }
    }
    out.flush()?;
    Ok(())
}

fn tell<W: Write>(alloc: Global, out: &mut W, msg: &Msg) -> Result<()> {
    match msg {
        Msg::Read { ts, class, txn, attempt, conds, uses } => {
            write!(out, "read {} {} {} {}", ts.0, class.0, txn.0, *attempt)?;
            write!(out, " {}", conds.as_slice().len())?;
            for cond in conds.as_slice() { tell_cond(out, cond)?; }
            write!(out, " {}", uses.as_slice().len())?;
            for used in uses.as_slice() { tell_use(alloc, out, used)?; }
        }
        Msg::Ready { ts, class, counts } => {
            write!(out, "ready {} {} {}", ts.0, class.0, counts.as_slice().len())?;
            for count in counts.as_slice() { write!(out, " {} {}", count.0, count.1)?; }
        }
        Msg::Reject { ts, class, by, write } => write!(out, "reject {} {} {} {}", ts.0, class.0, by.0, write.0)?,
        Msg::Fetch { ts, class, use_no, column } => write!(out, "fetch {} {} {} {}", ts.0, class.0, *use_no, *column)?,
        Msg::Values { ts, class, use_no, values } => {
            write!(out, "values {} {} {}", ts.0, class.0, *use_no)?;
            tell_values(alloc, out, values)?;
        }
        Msg::Reduce { ts, class, use_no, column, values } => {
            write!(out, "reduce {} {} {} {}", ts.0, class.0, *use_no, *column)?;
            tell_values(alloc, out, values)?;
        }
        Msg::Reduced { ts, class, use_no, count } => write!(out, "reduced {} {} {} {}", ts.0, class.0, *use_no, *count)?,
        Msg::Ship { ts, class } => write!(out, "ship {} {}", ts.0, class.0)?,
        Msg::Rows { ts, class, rows } => {
            write!(out, "rows {} {} {}", ts.0, class.0, rows.as_slice().len())?;
            for row in rows.as_slice() {
                write!(out, " {}", row.0)?;
                tell_values(alloc, out, &row.1)?;
            }
        }
        Msg::Write { ts, class, txn, changes } => {
            write!(out, "write {} {} {} {}", ts.0, class.0, txn.0, changes.as_slice().len())?;
            for change in changes.as_slice() { tell_change(alloc, out, change)?; }
        }
        Msg::Null { class, time } => write!(out, "null {} {}", class.0, time.0)?,
        Msg::Ask { class, time } => write!(out, "ask {} {}", class.0, time.0)?,
        Msg::Hold => write!(out, "hold")?,
        Msg::Held { time } => write!(out, "held {}", time.0)?,
        Msg::Done { ts } => write!(out, "done {}", ts.0)?,
        Msg::Release { ts } => write!(out, "release {}", ts.0)?,
    }
    Ok(())
}

fn tell_value<W: Write>(alloc: Global, out: &mut W, value: &Value) -> Result<()> {
    match value {
        Value::Int(number) => write!(out, " i{}", *number)?,
        Value::Text(text) => write!(out, " t{}", hex::encode(alloc, text.as_str().as_bytes())?)?,
    }
    Ok(())
}

fn tell_values<W: Write>(alloc: Global, out: &mut W, values: &Row) -> Result<()> {
    write!(out, " {}", values.as_slice().len())?;
    for value in values.as_slice() { tell_value(alloc, out, value)?; }
    Ok(())
}

fn tell_cond<W: Write>(out: &mut W, cond: &Cond) -> Result<()> {
    write!(out, " {} {} {}", cond.class.0, cond.time.0, cond.frags.as_slice().len())?;
    for frag in cond.frags.as_slice() { write!(out, " {}", frag.0)?; }
    Ok(())
}

fn tell_op<W: Write>(out: &mut W, op: Op) -> Result<()> {
    match op {
        Op::Eq => write!(out, " =")?,
        Op::Ne => write!(out, " !=")?,
        Op::Lt => write!(out, " <")?,
        Op::Le => write!(out, " <=")?,
        Op::Gt => write!(out, " >")?,
        Op::Ge => write!(out, " >=")?,
    }
    Ok(())
}

fn tell_restriction<W: Write>(alloc: Global, out: &mut W, r: &Restriction) -> Result<()> {
    write!(out, " {}", r.column)?;
    tell_op(out, r.op)?;
    tell_value(alloc, out, &r.value)
}

fn tell_use<W: Write>(alloc: Global, out: &mut W, used: &Use) -> Result<()> {
    write!(out, " {} {} {}", used.number, used.rel.0, used.frags.as_slice().len())?;
    for frag in used.frags.as_slice() { write!(out, " {}", frag.0)?; }
    write!(out, " {}", used.restrictions.as_slice().len())?;
    for r in used.restrictions.as_slice() { tell_restriction(alloc, out, r)?; }
    Ok(())
}

fn tell_change<W: Write>(alloc: Global, out: &mut W, change: &Change) -> Result<()> {
    write!(out, " {} {}", change.frag.0, change.key)?;
    match &change.row {
        Some(row) => {
            write!(out, " +")?;
            tell_values(alloc, out, row)
        }
        None => {
            write!(out, " -")?;
            Ok(())
        }
    }
}
"""

U32 = [0, 1, 2, 3, 255, 256, 2**31, 2**32 - 1]
U64 = U32 + [65, 191, 2**32, 2**63, 2**64 - 1]
I64 = [0, 1, -1, 2**31, -(2**31), 2**63 - 1, -(2**63)]
TEXTS = ["", "a", "ann", "\0", "\r", "é", "漢字", "\U0001f600", "b" * 255, "ä" * 127]


def u32(rng):
    return struct.pack(">I", rng.choice(U32) if rng.random() < 0.7 else rng.getrandbits(32))


def u64(rng):
    return struct.pack(">Q", rng.choice(U64) if rng.random() < 0.7 else rng.getrandbits(64))


def i64(rng):
    return struct.pack(">q", rng.choice(I64) if rng.random() < 0.7 else rng.getrandbits(64) - 2**63)


def listed(item):
    def made(rng):
        count = rng.choice([0, 0, 1, 1, 2, 3])
        return struct.pack(">Q", count) + b"".join(item(rng) for _ in range(count))
    return made


def fields(*parts):
    return lambda rng: b"".join(part(rng) for part in parts)


def value(rng):
    if rng.random() < 0.5:
        return b"\0" + i64(rng)
    text = rng.choice(TEXTS).encode()
    return b"\1" + bytes([len(text)]) + text


def optional(item):
    return lambda rng: b"\0" if rng.random() < 0.4 else b"\1" + item(rng)


def operator(rng):
    return bytes([rng.randint(1, 6)])


ROW = listed(value)
COND = fields(u32, u64, listed(u32))
USE = fields(u32, u32, listed(u32), listed(fields(u32, operator, value)))
CHANGE = fields(u32, i64, optional(ROW))
MESSAGES = [
    fields(u64, u32, u32, u64, listed(COND), listed(USE)),
    fields(u64, u32, listed(fields(u32, u64))),
    fields(u64, u32, u32, u64),
    fields(u64, u32, u32, u32),
    fields(u64, u32, u32, ROW),
    fields(u64, u32, u32, u32, ROW),
    fields(u64, u32, u32, u64),
    fields(u64, u32),
    fields(u64, u32, listed(fields(u32, ROW))),
    fields(u64, u32, u32, listed(CHANGE)),
    fields(u32, u64),
    fields(u32, u64),
    fields(),
    fields(u64),
    fields(u64),
    fields(u64),
]
STRANGE = [0, 1, 2, 3, 6, 7, 10, 16, 17, 127, 128, 0xC0, 0xE9, 0xED, 0xF5, 254, 255]


def message(rng):
    tag = rng.choice([1, 1, 1, 5, 6, 9, 9, 10, 10] + list(range(1, 17)))
    return bytes([tag]) + MESSAGES[tag - 1](rng)


def changed(rng, made):
    made = bytearray(made)
    for _ in range(rng.choice([1, 1, 1, 2, 3])):
        how = rng.randint(0, 5)
        at = rng.randint(0, max(len(made) - 1, 0))
        if how == 0:
            del made[at:]
        elif how == 1:
            made += bytes(rng.choice(STRANGE) for _ in range(rng.randint(1, 3)))
        elif how == 2:
            made[at:at] = bytes([rng.choice(STRANGE)])
        elif how == 3 and made:
            del made[at]
        elif made:
            made[at] = rng.choice(STRANGE)
    return bytes(made)


def made(rng):
    whole = message(rng)
    return whole if rng.random() < 1 / 3 else changed(rng, whole)


def make_folder(top):
    lines = open(os.path.join(TOP, "crates.txt")).read().splitlines()
    with open(os.path.join(top, "crates.txt"), "w", newline="\n") as out:
        for line in lines:
            if line.split(":")[0] in CRATES:
                out.write(line + "\n")
        out.write("messages: sdd_base sdd_wire anyhow hex\n")
    with open(os.path.join(top, "HANDLES"), "w", newline="\n") as out:
        out.write("Handles allowed: none.\n")
    os.makedirs(os.path.join(top, "crates", "messages", "src"))
    for name in CRATES:
        subprocess.run(["cp", "-a", os.path.join(TOP, "crates", name), os.path.join(top, "crates")], check=True)
    with open(os.path.join(top, "crates", "messages", "src", "main.rt"), "w", newline="\n") as out:
        out.write(PROGRAM.lstrip())
    return os.path.join(top, "crates", "messages")


def answers_here(top, lines):
    crate = make_folder(top)
    cases = os.path.join(top, "cases")
    os.makedirs(cases)
    names = []
    for first in range(0, len(lines), BATCH):
        names.append("%06d" % first)
        with open(os.path.join(cases, names[-1]), "w", newline="\n") as out:
            out.write("".join(line + "\n" for line in lines[first:first + BATCH]))
    ran = subprocess.run(["rt", "try", "--cases", cases], cwd=crate, capture_output=True, text=True)
    found, name = {}, None
    for line in ran.stdout.splitlines():
        head = re.fullmatch(r"== (\d{6})", line)
        if head:
            name = head.group(1)
            found[name] = []
        elif name is not None and re.match(r"(bad \d|no memory|[a-z]+( .*)? = )", line):
            found[name].append(line)
    answers = [line for name in names for line in found.get(name, [])]
    if len(answers) != len(lines):
        sys.exit("the program answered %d of %d lines:\n%s%s" % (len(answers), len(lines), ran.stdout[-2000:], ran.stderr[-2000:]))
    return answers


def main():
    asked = argparse.ArgumentParser(description=__doc__, formatter_class=argparse.RawDescriptionHelpFormatter, usage=argparse.SUPPRESS)
    asked.add_argument("count", type=int, metavar="COUNT")
    asked.add_argument("seed", type=int, nargs="?", default=0, metavar="SEED")
    asked = asked.parse_args()
    rng = random.Random(asked.seed)
    lines = [made(rng).hex() for _ in range(asked.count)]
    wanted = messages.answers(lines)
    with tempfile.TemporaryDirectory() as top:
        answers = answers_here(top, lines)
    same = 0
    for line, want, got in zip(lines, wanted, answers):
        if want == got:
            same += 1
        else:
            print("%s\n  wanted %s\n  got    %s" % (line, want, got))
    read = sum(not want.startswith("bad") for want in wanted)
    print("%d same (%d read), %d different" % (same, read, asked.count - same))
    return 1 if same != asked.count else 0


if __name__ == "__main__":
    sys.exit(main())
