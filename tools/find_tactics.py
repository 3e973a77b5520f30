#!/usr/bin/env python3
"""Finds which tactic proves each goal that has no answer, and writes it down where that makes a proof quicker.

    tools/find_tactics.py [--least SECONDS] [--libraries FOLDER] [--room FOLDER] CRATE

A goal without an answer is tried with `search rules` and then with `grind` and one set of lemmas after the other; those
that fail take most of the time. Of each function of the crate whose proof takes SECONDS or more (1 if left out), each
such goal gets one tactic after the other as its answer, until one proves it. What `search rules` doesn't prove is then
written to proofs/FUNCTION/Answers.antt, and taken back where the function's proof isn't quicker by a fifth with it.

FOLDER/CRATE/out/rlib holds the libraries of the crates below, as `rt ci` leaves them; it is crates/ if left out. The
room keeps what was checked, so that a call which is cut off goes on from there; it is .git/find_tactics if left out.
Times are those of a clock: nothing else should run. It takes some two to four times what a check of the crate takes.
It refuses a crate that isn't proved as it stands. Where it is cut off, no answer stays that it was only trying.
"""
import collections
import json
import os
import re
import shutil
import subprocess
import time

from link_program import Refused, kit_folder
from sdd.command import parser, start
from sdd.programs import ROOT

TACTICS = ["search rules", "omega arith", "grind (arith, common_steps)", "grind (arith, elements)", "grind (arith, moves)"]
STEPS = " steps 2000000"
HOMES = {
    "rules": "Rattle.std.proofs.Common", "arith": "Rattle.std.proofs.Common", "common_steps": "Rattle.std.proofs.lemmas.Grind",
    "elements": "Rattle.std.proofs.lemmas.Grind", "moves": "Rattle.std.proofs.lemmas.Grind",
}
GOAL = re.compile(r"(returns|overflow_|nonzero_|bounds-|slice_bounds-|offset_bounds-|invariant_of-|prove-)|.*-(init|preserved|smaller|requires)(-|$)")
OF_LIFETIMES = ("lives-", "drop-", "branch-", "from_residual-")
ERROR = re.compile(r"^\./proofs/(\S+)/Answers\.antt:(\d+):\d+: error", re.M)
PROVED = re.compile(r"^logic=proved ", re.M)
NOT_PROVED = re.compile(r"^fn \w+::(\S+): (?!proved)", re.M)


def fault_of(said):
    """The first line of what a check says that names an error, or else its last line."""
    lines = [line for line in said.split("\n") if line.strip()]
    return next((line for line in lines if "error" in line), lines[-1] if lines else "it says nothing")


def dependencies():
    """The crates that each crate names, by crates.txt."""
    found = {}
    with open(os.path.join(ROOT, "crates.txt"), encoding="utf-8") as lines:
        for line in lines:
            name, colon, rest = line.partition("#")[0].partition(":")
            if colon:
                found[name.strip()] = rest.split()
    return found


def below(crate, named):
    """The crates below, lowest first."""
    found = []
    for it in named[crate]:
        if it in named and it not in found:
            found += [x for x in below(it, named) if x not in found] + [it]
    return found


def command(crate, libraries, links):
    """The words of a check of the crate; the folder of links is made anew."""
    named = dependencies()
    shutil.rmtree(links, ignore_errors=True)
    os.makedirs(links)
    for it in below(crate, named):
        library = os.path.join(libraries, it, "out", "rlib", it + ".rlib")
        if not os.path.exists(library):
            raise Refused("%s is missing: rt ci leaves it once it has proved %s" % (library, it))
        os.symlink(library, os.path.join(links, it + ".rlib"))
    kit = kit_folder()
    root = "src/lib.rt" if os.path.exists(os.path.join(ROOT, "crates", crate, "src", "lib.rt")) else "src/main.rt"
    words = [kit + "/bin/rattle", "check", "--crate-name", crate, root, "--extern", "std=%s/rlibs/std.rlib" % kit]
    for it in named[crate]:
        words += ["--extern", "%s=%s/%s.rlib" % (it, links if it in named else kit + "/rlibs", it)]
    return words + [
        "-L", "dependency=" + links, "-L", "dependency=%s/rlibs" % kit, "--antt-project", kit + "/rattle/logic/antt-project.json",
        "--logic-built", kit + "/logic_built", "--links", crate + "=", "--jobs", "1",
    ]


def declared_in(data, module):
    """The names that a checked module declares, read from the bytes of its file: each stands after its length."""
    found = set()
    for match in re.finditer(re.escape(module + ".").encode(), data):
        at = match.start()
        size = data[at - 1]
        if size < 8 and data[at - 2] >= 128:
            size = data[at - 2] & 127 | size << 7
        name = data[at : at + size].decode("utf-8", "replace")[len(module) + 1 :]
        if re.fullmatch(r"[\w+-]+", name):
            found.add(name)
    return found


def goals_without_answer(names, answers):
    """Of the names that a proof declares, the goals that neither they nor their parts have an answer, and no part stands for."""
    given = set(re.findall(r"goal\.([^\s]+)", answers))
    return sorted(
        it for it in names
        if GOAL.match(it) and not it.startswith(OF_LIFETIMES) and "lives-" + it not in names
        and not any(other.startswith(it + "-clause-") for other in names)
        and it not in given and not any(it.startswith(other + "-clause-") for other in given)
    )


def with_answers(crate, function, text, tactics, arguments):
    """The text of a file of answers with one more for each goal of a dictionary from goals to tactics."""
    if not tactics:
        return text
    lines = text.rstrip("\n").split("\n") if text else ["use Rattle.%s.proofs.%s.Goals as goal" % (crate, function.replace("::", "."))]
    here = set(re.findall(r"[{ ,]([^\s,{}]+)(?=[,}])", " ".join(x for x in lines if x.startswith("use "))))
    homes = collections.defaultdict(set)
    for name in re.findall(r"\b(%s)\b" % "|".join(HOMES), " ".join(tactics.values())):
        if name not in here:
            homes[HOMES[name]].add(name)
    uses = ["use %s.{%s}" % (home, ", ".join(sorted(names))) for home, names in sorted(homes.items())]
    more = ["\npub %s : goal.%s\n%s %s = %s" % (it, it, it, arguments, tactics[it]) for it in sorted(tactics)]
    return "\n".join(uses + lines + more) + "\n"


def goal_at(text, line):
    """The goal whose answer stands at a line of a file of answers, or None."""
    above = re.findall(r"^(?:abbrev )?(?:pub )?\S+ : goal\.(\S+)", "\n".join(text.split("\n")[:line]), re.M)
    return above[-1] if above else None


def remove_empty(folder):
    """Removes the folder, and each above it that then has nothing in it."""
    while not os.listdir(folder):
        os.rmdir(folder)
        folder = os.path.dirname(folder)


class Function:
    def __init__(self, crate, name, names):
        self.crate, self.name = crate, name
        self.folder = os.path.join(ROOT, "crates", crate, "proofs", *name.split("::"))
        self.path = os.path.join(self.folder, "Answers.antt")
        self.before = ""
        if os.path.exists(self.path):
            with open(self.path, encoding="utf-8") as file:
                self.before = file.read()
        self.arguments = "g c" if "T1" in names or re.search(r"^\S+ g c\b", self.before, re.M) else "c"
        self.open, self.found = set(goals_without_answer(names, self.before)), {}

    def write(self, tactics):
        text = with_answers(self.crate, self.name, self.before, tactics, self.arguments)
        if text:
            os.makedirs(self.folder, exist_ok=True)
            with open(self.path, "w", encoding="utf-8") as file:
                file.write(text)
        elif os.path.exists(self.path):
            os.remove(self.path)
            remove_empty(self.folder)
        return text

    def chosen(self):
        """The answers worth a line: the prover begins with `search rules` by itself."""
        return {goal: tactic for goal, tactic in self.found.items() if tactic != TACTICS[0]}


class Checks:
    """Checks of one crate, over what earlier ones left in the room."""

    def __init__(self, crate, libraries, room):
        self.crate, self.kept = crate, os.path.join(room, crate)
        self.words = command(crate, libraries, os.path.join(room, "links-" + crate))
        os.makedirs(self.kept, exist_ok=True)

    def times(self):
        """The seconds that each function's proof took when a check of the whole crate last made it."""
        path, taken = self.kept + ".json", {}
        if os.path.exists(path):
            with open(path, encoding="utf-8") as file:
                taken = json.load(file)
        said, made = self.check()
        if not PROVED.search(said):
            raise Refused("%s isn't proved as it stands: %s" % (self.crate, fault_of(said)))
        taken.update(made)
        with open(path, "w", encoding="utf-8") as file:
            json.dump(taken, file)
        return taken

    def check(self, functions=()):
        """What a check says, and the seconds that each function's proof and answers took in it."""
        only = [word for it in functions for word in ("--only", it)]
        begun = time.time()
        said = subprocess.run(
            self.words + ["--incremental", self.kept] + only, cwd=os.path.join(ROOT, "crates", self.crate),
            stdout=subprocess.PIPE, stderr=subprocess.STDOUT, text=True,
        ).stdout
        return said, self.seconds(begun)

    def modules(self):
        for at, _, names in os.walk(self.kept):
            for name in names:
                match = re.fullmatch(r"Rattle-%s-proofs\.(.*?)(\.decls)?\.oantt" % self.crate, name)
                if match:
                    yield os.path.join(at, name), match[1]

    def seconds(self, begun):
        made = sorted((os.stat(path).st_mtime, module) for path, module in self.modules())
        taken = collections.Counter()
        for (before, _), (at, module) in zip(made, made[1:]):
            function, _, kind = module.rpartition(".")
            if before >= begun and kind in ("Proof", "Answers"):
                taken[function.replace(".", "::")] += at - before
        return taken

    def names(self, function):
        proof = function.replace("::", ".") + ".Proof"
        found = set()
        for path, module in self.modules():
            if module == proof:
                with open(path, "rb") as file:
                    found |= declared_in(file.read(), "Rattle-%s-proofs.%s" % (self.crate, proof))
        return found


def try_tactic(checks, functions, tactic):
    """Tries a tactic at each open goal; returns the functions that can't be judged, as one that they call isn't proved."""
    trial = tactic + (STEPS if tactic.startswith("grind") else "")
    texts = {it.name: it.write({**it.found, **dict.fromkeys(it.open, trial)}) for it in functions}
    said, _ = checks.check(texts)
    refused = collections.defaultdict(set)
    for path, line in ERROR.findall(said):
        name = path.replace("/", "::")
        refused[name].add(goal_at(texts.get(name, ""), int(line)))
    unjudged = [it for it in functions if it.name in NOT_PROVED.findall(said) and not refused[it.name]]
    for it in functions:
        if it not in unjudged:
            it.found.update(dict.fromkeys(it.open - refused[it.name], tactic))
            it.open &= refused[it.name]
    return unjudged


def find(checks, functions):
    """Finds the tactics; a second turn is for functions that call others which the first left unproved at times."""
    for _ in range(2):
        later = []
        try:
            for tactic in TACTICS:
                asked = [it for it in functions if it.open and it not in later]
                if asked:
                    later += try_tactic(checks, asked, tactic)
        finally:
            for it in functions:
                it.write(it.chosen())
        functions = later


def main():
    asked = parser(__doc__)
    asked.add_argument("--least", type=float, default=1.0, metavar="SECONDS")
    asked.add_argument("--libraries", default=os.path.join(ROOT, "crates"), metavar="FOLDER")
    asked.add_argument("--room", default=os.path.join(ROOT, ".git", "find_tactics"), metavar="FOLDER")
    asked.add_argument("crate", metavar="CRATE")
    asked = asked.parse_args()
    if asked.crate not in dependencies():
        raise Refused("crates.txt has no crate %s" % asked.crate)
    checks = Checks(asked.crate, os.path.abspath(asked.libraries), os.path.abspath(asked.room))
    before = checks.times()
    slow = [name for name, taken in before.items() if taken >= asked.least and "+" not in name]
    functions = [Function(asked.crate, name, checks.names(name)) for name in slow]
    find(checks, functions)
    changed = [it for it in functions if it.chosen()]
    said, after = checks.check([it.name for it in changed]) if changed else ("", {})
    unproved = set(NOT_PROVED.findall(said))
    for it in changed:
        quicker = it.name not in unproved and after[it.name] <= 0.8 * before[it.name]
        it.write(it.chosen() if quicker else {})
        print("%s: %.1f to %.1f s%s" % (it.name, before[it.name], after[it.name], "" if quicker else ", left as it was"))


if __name__ == "__main__":
    start(main)
