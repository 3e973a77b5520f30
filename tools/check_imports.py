#!/usr/bin/env python3
"""Checks that each name which a file of the proofs takes from another file of the repository stands there; two seconds.

    tools/check_imports.py

A file of specs/ or proofs/, and a `ghost use` of src/, names what it takes by its home: `Rattle.CRATE.specs.FILE.{NAMES}`. The
prover says where a name is missing, but only when it comes to that crate, which may be an hour later. Here each line is followed
through what libraries pass on (`pub use .. as ..` in Lib.antt), and each name is looked for in the file: as a definition, a
constructor, a field, or a name that is passed on. What the prover makes itself (goals, declared types) is left out.

Said too is where a file names a crate that its own doesn't name in crates.txt, where files of a crate take names from each
other in a circle, where an answer to a goal has another name than the goal, as after a clause was renamed, and where answers
stand in the folder of another function than theirs, as after a merge that took a new file for one that was moved.
"""
import os
import re

import sdd_path  # noqa: F401
from crate_paths import read_crates
from sdd.command import judge, parser, start
from sdd.programs import ROOT

CRATES = os.path.join(ROOT, "crates")
TAKES = re.compile(r"\buse Rattle\.(sdd_\w+(?:\.\w+)*)\.\{([^}]*)\}")
PASSES = re.compile(r"^pub use [\w.]+\.\{([^}]*)\}", re.M)
WHOLE = re.compile(r"^pub use Rattle\.([\w.]+) as (\w+)", re.M)
DEFINES = re.compile(r"^\s*(?:(?:pub|abbrev|unfoldable|data|record) )*([^\s:({]+)(?= *[:({])", re.M)
MADE = {"declared", "Goals", "Given", "Steps"}
NAMED = re.compile(r"\bRattle\.(sdd_\w+)\.(?:specs|proofs)\b")
ANSWERS = re.compile(r"^pub (\S+) : goal\.(\S+)$", re.M)
OF_FUNCTION = re.compile(r"^use Rattle\.(\S+)\.(?:Goals|Given) as goal$", re.M)


def text_of(path):
    with open(path, encoding="utf-8") as f:
        return f.read()


def listed(names):
    return [it.strip() for it in names.split(",") if it.strip()]


class Homes:
    """The files of the repository's crates, and what stands in each."""

    def __init__(self):
        self.whole, self.names = {}, {}

    def passed_on(self, crate, kind):
        """The folders that a crate passes on whole, by the names that they have there."""
        if (crate, kind) not in self.whole:
            lib = os.path.join(CRATES, crate, kind, "Lib.antt")
            found = WHOLE.findall(text_of(lib)) if os.path.exists(lib) else []
            self.whole[crate, kind] = {name: path.split(".") for path, name in found}
        return self.whole[crate, kind]

    def file_of(self, path):
        """The file in which a path of names ends, or None where it leads out of the repository."""
        parts = path.split(".")
        while len(parts) > 2 and parts[2] in self.passed_on(parts[0], parts[1]):
            parts = self.passed_on(parts[0], parts[1])[parts[2]] + parts[3:]
        file = os.path.join(CRATES, *parts) + ".antt"
        return file if os.path.exists(file) else os.path.join(CRATES, *parts[:-1]) + ".antt"

    def has(self, file, name):
        if file not in self.names:
            text = text_of(file)
            passed = [it.split(" as ")[-1].strip() for names in PASSES.findall(text) for it in listed(names)]
            self.names[file] = {*DEFINES.findall(text), *passed}
        return name in self.names[file]


def files():
    for at, folders, names in os.walk(CRATES):
        folders[:] = sorted(it for it in folders if it != "out")
        yield from (os.path.join(at, it) for it in sorted(names) if it.endswith((".antt", ".rt")))


def missing(homes, file):
    """What a file takes from another one that doesn't stand there."""
    for path, names in TAKES.findall(text_of(file)):
        home = homes.file_of(path)
        # (a file of a person's may have the name of what the prover makes: specs/Steps.antt)
        if path.split(".")[1] not in ("specs", "proofs") or MADE & {*path.split(".")} and not os.path.exists(home):
            continue
        if not os.path.exists(home):
            yield "%s: there is no %s" % (os.path.relpath(file, ROOT), path)
            continue
        for name in listed(names):
            if not homes.has(home, name.split(" as ")[0].strip()):
                yield "%s: %s has no %s" % (os.path.relpath(file, ROOT), path, name)


def crate_of(file):
    return os.path.relpath(file, CRATES).split(os.sep)[0]


def unnamed(named, file):
    """The crates that a file names and its own crate doesn't."""
    own = crate_of(file)
    for other in sorted({*NAMED.findall(text_of(file))} - {own, *named.get(own, ())}):
        yield "%s: crates.txt has no %s in the line of %s" % (os.path.relpath(file, ROOT), other, own)


def misnamed(file):
    """The answers whose goals have other names."""
    for name, goal in ANSWERS.findall(text_of(file)):
        if name != goal:
            yield "%s: %s answers the goal %s" % (os.path.relpath(file, ROOT), name, goal)


def displaced(file):
    """Where the goals of a file are those of a function in whose folder it doesn't stand."""
    own = os.path.dirname(os.path.relpath(file, CRATES)).replace(os.sep, ".")
    for function in OF_FUNCTION.findall(text_of(file)):
        if function != own:
            yield "%s: answers goals of %s" % (os.path.relpath(file, ROOT), function)


def circles(homes, all_files):
    """Of each circle of files of a crate that take names from each other, the file at which it closes."""
    taken = {file: {homes.file_of(path) for path, _ in TAKES.findall(text_of(file)) if path.split(".")[0] == crate_of(file)}
             for file in all_files if file.endswith(".antt")}
    state = {}
    for first in taken:
        walk = [(first, iter(sorted(taken[first])))] if first not in state else []
        state.setdefault(first, "open")
        while walk:
            file, rest = walk[-1]
            following = next((it for it in rest if it in taken and state.get(it) != "over"), None)
            if following is None:
                state[file] = "over"
                walk.pop()
            elif state.get(following) == "open":
                yield "%s: takes names from %s, which takes names from it" % tuple(os.path.relpath(it, ROOT) for it in (file, following))
            else:
                state[following] = "open"
                walk.append((following, iter(sorted(taken[following]))))


def all_wrong():
    """All that is wrong, a line each."""
    homes, all_files = Homes(), list(files())
    named = read_crates(os.path.join(ROOT, "crates.txt"))
    found = [it for file in all_files for it in [*missing(homes, file), *unnamed(named, file), *misnamed(file), *displaced(file)]]
    return [*found, *circles(homes, all_files)]


def main():
    parser(__doc__).parse_args()
    return judge("imports", all_wrong(), "names are wrong", "each name stands where it is taken from")


if __name__ == "__main__":
    start(main)
