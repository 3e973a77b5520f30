"""Looks for the least workload and catalogue whose report still has a line.

    sdd shrink CATALOGUE WORKLOAD (--keep TEXT [--keep TEXT ..] | --command COMMAND) --into FOLDER
               [--any-class] [--program COMMAND]

With --keep, a line of what `run` prints has to contain TEXT: of the report, or the one line of a refusal; of several
--keep each has such a line. Take no number of an event into TEXT, since these change. A transaction keeps the class in
which it runs, or what is left might show something else: a wait of a transaction that no class covers any more. With
--any-class it may get another, or none. With --command, COMMAND is called with the paths of
a catalogue and a workload after its words, and says yes by its status 0.

Events, transactions, rows, class lists, statements and conditions are left out as long as the line
stays; then classes, what they read and write, copies, relations and modules of the catalogue. What is left is
the least in this sense: the line goes with each single one of these. FOLDER gets the files `catalogue.toml`
and `workload`. The program is called some hundred times; the reference answers within this process.
"""
import hashlib
import os
import sys
import tempfile

from sdd.command import parser, parts_of, run_outside
from sdd.design.shrinking import catalogue_cuts, lines_without, parts_of_catalogue, format_catalogue, workload_cuts
from sdd.model.files import BadInput, text_of
from sdd.model.reading import catalogue_at, workload_at
from sdd.programs import Program, add_program


class Shrinker:
    """A catalogue and a workload that are made smaller, and the question that they have to answer by yes."""

    def __init__(self, asked, folder):
        self.asked, self.known, self.calls = asked, {}, 0
        self.paths = [os.path.join(folder, x) for x in ("catalogue.toml", "workload")]
        self.program = None if asked.command is not None else Program(asked.program)
        self.catalogue, self.workload = text_of(asked.catalogue), text_of(asked.workload)
        self.classes = None         # transactions with the classes in which they run
        if not self.holds(self.catalogue, self.workload):
            raise BadInput("%s of these two files" % self.what_lacks())
        if self.program and not asked.any_class:
            self.classes = set(self.starts(self.tell()))

    def holds(self, catalogue, workload):
        key = hashlib.sha256((catalogue + "\0" + workload).encode()).digest()
        if key not in self.known:
            for path, text in zip(self.paths, (catalogue, workload)):
                with open(path, "w", encoding="utf-8", newline="\n") as f:
                    f.write(text)
            self.known[key] = self.asks()
            self.calls += 1
            if sys.stderr.isatty():
                sys.stderr.write("\r\x1b[K%d calls, %d lines" % (self.calls, workload.count("\n")))
        return self.known[key]

    def asks(self):
        if self.program is None:
            return run_outside(parts_of(self.asked.command), self.paths).returncode == 0
        lines = self.tell()
        return self.lacking(lines) is None and (self.classes is None or set(self.starts(lines)) <= self.classes)

    def tell(self):
        """What `run` prints for the files as they are now."""
        reported = self.program.ask(["run"] + self.paths)
        return (reported.text + reported.error).split("\n")

    def lacking(self, lines):
        """The first text that no line has."""
        return next((x for x in self.asked.keep if not any(x in line for line in lines)), None)

    def what_lacks(self):
        return "the command says no" if self.program is None else "no line of what `run` prints has %s" % self.lacking(self.tell())

    def starts(self, lines):
        """Of each start the transaction and its class."""
        for line in lines:
            words = line.split(" ")
            if len(words) == 6 and words[1] == "start":
                yield words[2].partition("#")[0], words[3]

    def cut_workload(self):
        """Leaves out parts of the workload, large ones first; whether one was."""
        before = self.workload
        for cuts in workload_cuts():
            size = len(cuts(self.workload.split("\n")[:-1]))
            while size:
                size = min(size, self.cut_pieces(cuts, size)) // 2
        return self.workload != before

    def cut_pieces(self, cuts, size):
        """Leaves out so many cuts at once, wherever the line stays; how many cuts are left."""
        lines, place = self.workload.split("\n")[:-1], 0
        found = cuts(lines)
        while place < len(found):
            text = "".join(x + "\n" for x in lines_without(lines, found[place:place + size]))
            if self.holds(self.catalogue, text):
                self.workload, lines = text, text.split("\n")[:-1]
                found = cuts(lines)
            else:
                place += size
        return len(found)

    def cut_catalogue(self):
        shorter, again = False, True
        while again:
            again = False
            for parts in catalogue_cuts(parts_of_catalogue(self.asked.catalogue, self.catalogue)):
                text = format_catalogue(parts)
                if self.holds(text, self.workload):
                    self.catalogue, shorter, again = text, True, True
                    break
        return shorter

    def shrink(self):
        while self.cut_workload() | self.cut_catalogue():
            pass


def main():
    asked = parser(__doc__)
    asked.add_argument("catalogue", metavar="CATALOGUE")
    asked.add_argument("workload", metavar="WORKLOAD")
    which = asked.add_mutually_exclusive_group(required=True)
    which.add_argument("--keep", metavar="TEXT", action="append", help="what a line of the report has to contain; again and again")
    which.add_argument("--command", metavar="COMMAND", help="what says yes of the two files")
    asked.add_argument("--any-class", action="store_true", help="a transaction may get another class, or none")
    asked.add_argument("--into", metavar="FOLDER", required=True)
    add_program(asked)
    asked = asked.parse_args()
    if asked.keep:
        workload_at(asked.workload, catalogue_at(asked.catalogue))      # or it is refused with its place; a command may want a faulty one
    with tempfile.TemporaryDirectory(prefix="shrink-") as folder:
        shrinker = Shrinker(asked, folder)
        before = [x.count("\n") for x in (shrinker.workload, shrinker.catalogue)]
        shrinker.shrink()
    os.makedirs(asked.into, exist_ok=True)
    for name, text in (("catalogue.toml", shrinker.catalogue), ("workload", shrinker.workload)):
        with open(os.path.join(asked.into, name), "w", encoding="utf-8", newline="\n") as f:
            f.write(text)
    if sys.stderr.isatty():
        sys.stderr.write("\r\x1b[K")
    print("workload: %d lines of %d; catalogue: %d of %d; %d calls" % (
        shrinker.workload.count("\n"), before[0], shrinker.catalogue.count("\n"), before[1], shrinker.calls))
