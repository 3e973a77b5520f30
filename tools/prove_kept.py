#!/usr/bin/env python3
"""Proves crates and keeps what was proved, for a kit whose `rt` keeps nothing from one run to the next.

    tools/prove_kept.py prove [CRATE ..]        proves these crates, all if none is named, and what lies below them
    tools/prove_kept.py check CRATE [FLAG ..]   proves what lies below, and checks the crate over it, as `rt check` does
    tools/prove_kept.py status [CRATE ..]       says of each crate whether it is proved as it stands

A result is kept by what it was made from: the crate's text, and what its libraries came to. A library that comes out as
before, as it does where comments or proofs alone have changed, leaves all crates above it proved. Results of several
clones are shared, and two calls never prove one crate at once. Each crate is proved from nothing over the statements
of those below, as `rt ci` does; the gate is `rt ci` alone, since here no edit that must be refused is tried, and no
program is run. With --kept FOLDER results are kept there, not in .git/proved of this clone.
"""
import argparse
import copy
import fcntl
import hashlib
import importlib.machinery
import importlib.util
import os
import shutil
import subprocess
import sys
import threading

ROOT = os.path.dirname(os.path.dirname(os.path.abspath(__file__)))
PARTS = ("src", "specs", "proofs")
LOCK = threading.RLock()
KEYS = {}


def kit():
    """The module of the kit's `rt`, set up as for the gate."""
    doc = subprocess.run(["rt", "doc"], capture_output=True, text=True, check=True).stdout.strip()
    loader = importlib.machinery.SourceFileLoader("rt_of_kit", os.path.join(os.path.dirname(doc), "bin", "rt"))
    made = importlib.util.module_from_spec(importlib.util.spec_from_loader("rt_of_kit", loader))
    sys.modules["rt_of_kit"] = made
    loader.exec_module(made)
    made.rtlib.stop = made.stop
    made.Crate.cuts_libraries = True
    made.rtlib.Crate = made.Crate
    made.rtlib.guarded()
    made.Crate.allowed = made.handles_of(ROOT)
    return made


def text_sum(folder, start):
    """The sum of a folder's files, with their names."""
    found = hashlib.sha256(start)
    for at, folders, files in os.walk(folder):
        folders.sort()
        for name in sorted(files):
            path = os.path.join(at, name)
            with open(path, "rb") as file:
                found.update(repr((os.path.relpath(path, folder), hashlib.sha256(file.read()).digest())).encode())
    return found.hexdigest()


def own_text(crate):
    return "".join(text_sum(os.path.join(crate.folder, part), part.encode()) for part in PARTS)


def result_of(kept, crate):
    """What a kept crate came to, or None where it isn't proved."""
    name = key(kept, crate)
    file = name and os.path.join(kept, name, "ok")
    if not file or not os.path.exists(file):
        return None
    with open(file, encoding="ascii") as it:
        return it.read()


def key(kept, crate):
    """The folder's name of a crate's result; None where a library below isn't proved. Lets the crates above find the libraries."""
    if crate.name in KEYS:
        return KEYS[crate.name]
    found = hashlib.sha256((repr(crate.said.get("deps")) + own_text(crate)).encode())
    for below in crate.below():
        result = result_of(kept, below)
        if result is None:
            return None
        below.rlib = os.path.join(kept, KEYS[below.name], below.name + ".rlib")
        found.update(result.encode())
    KEYS[crate.name] = "%s-%s" % (crate.name, found.hexdigest()[:24])
    return KEYS[crate.name]


def refused(rt, crate, crates):
    """Whether the crate's text is refused before any proof."""
    try:
        rt.rtlib.stop_on_links(crate.folder)
        rt.rtlib.stop_on_unread(crate.folder, crates)
        rt.rtlib.stop_on_text(crate, "verdict")
        rt.stop_on_words(crate)
    except SystemExit:
        return True
    return bool(rt.rtlib.fmt(crate.folder, "--check", crate.out))


def proved_now(rt, crate, home, jobs):
    words = crate.words(["--jobs", str(jobs)], keeps=False)
    if crate.is_program:
        return not crate.prove(["check", *words])
    made = os.path.join(home, crate.name + ".rlib")
    shutil.rmtree(made, ignore_errors=True)
    return not crate.prove(["build", *words, "--statements", "-o", made])


def prove_one(rt, kept, crate, crates, jobs):
    with LOCK:
        name = key(kept, crate)
    if name is None:
        return False
    home = os.path.join(kept, name)
    os.makedirs(home, exist_ok=True)
    with open(os.path.join(home, "lock"), "w") as held, open(os.path.join(home, "log"), "a+", errors="replace") as log:
        fcntl.flock(held, fcntl.LOCK_EX)
        if os.path.exists(os.path.join(home, "ok")):
            return True
        crate, before = copy.copy(crate), own_text(crate)
        crate.out = log
        well = not refused(rt, crate, crates) and proved_now(rt, crate, home, jobs) and before == own_text(crate)
        print("%s %s" % (crate.name, "proved" if well else "NOT PROVED: %s/log" % home), flush=True)
        if well:
            made = os.path.join(home, crate.name + ".rlib")
            with open(os.path.join(home, "ok.new"), "w", encoding="ascii") as file:
                file.write(text_sum(made, b"") if os.path.isdir(made) else name)
            os.rename(os.path.join(home, "ok.new"), os.path.join(home, "ok"))
        return well


def prove_all(rt, kept, wanted, crates):
    """How many of the wanted crates, and of those below them, aren't proved."""
    names = {below.name for crate in wanted for below in [crate, *crate.below()]}
    left = [crate for crate in crates if crate.name in names and result_of(kept, crate) is None]
    todo = {crate.name for crate in left}
    tasks = {}
    for crate in left:
        waits = [below.name for below in crate.below() if below.name in todo]
        tasks[crate.name] = (waits, crate.count(rb"\n"), rt.need(crate), lambda given, jobs, it=crate, first=waits: (
            all(given[name] for name in first) and prove_one(rt, kept, it, crates, jobs)))
    failed = [name for name, well in rt.in_lanes(tasks).items() if not well]
    print("%d crates, not proved: %s" % (len(names), " ".join(failed) or "none"))
    return len(failed)


def main():
    asked = argparse.ArgumentParser(description=__doc__, formatter_class=argparse.RawDescriptionHelpFormatter)
    asked.add_argument("command", choices=["prove", "check", "status"])
    asked.add_argument("--kept", metavar="FOLDER", default=os.path.join(ROOT, ".git", "proved"))
    asked.add_argument("crates", nargs="*", metavar="CRATE")
    asked, flags = asked.parse_known_args()
    os.chdir(ROOT)
    rt = kit()
    crates = sorted(rt.rtlib.crates_below(ROOT), key=lambda it: len(it.below()))
    unknown = set(asked.crates) - {crate.name for crate in crates}
    if unknown or asked.command == "check" and len(asked.crates) != 1:
        print("prove_kept.py: %s" % ("no crate is called %s" % min(unknown) if unknown else "check takes one crate"), file=sys.stderr)
        return 2
    wanted = [crate for crate in crates if crate.name in asked.crates or not asked.crates]
    os.makedirs(asked.kept, exist_ok=True)
    if asked.command == "status":
        for crate in wanted:
            print(crate.name, "not proved" if result_of(asked.kept, crate) is None else "proved")
        return 0
    if asked.command == "prove":
        return 1 if prove_all(rt, asked.kept, wanted, crates) else 0
    if prove_all(rt, asked.kept, wanted[0].below(), crates):
        return 1
    key(asked.kept, wanted[0])
    words = wanted[0].words(flags) + ["--incremental", "out/checked"]
    return subprocess.run([*rt.rtlib.guarded(), rt.rtlib.RATTLE, "check", *words], cwd=wanted[0].folder, stdin=subprocess.DEVNULL).returncode


if __name__ == "__main__":
    sys.exit(main())
