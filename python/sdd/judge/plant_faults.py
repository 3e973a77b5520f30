"""Plants faults in true reports, and counts how many sdd to-elle and sdd check-history find.

    sdd plant-faults [--each N] [--seed SEED] [--show] [--program COMMAND]

The reports are of runs of the known applications (sdd/bench/applications) in all their designs, under drawn
schedules; every third run ends early, so that transactions are pending and copies differ. Each true report is
judged first: a fault that is reported there is a false alarm. Then N faults of each of ten kinds (30) are
planted, one in a report, and judged. A table is printed, and with --show each fault that wasn't found. The
status is 1 where there was a false alarm, or a fault wasn't found.
"""
import os
import random
import tempfile
from typing import NamedTuple

from sdd.bench.make_workload import APPLICATIONS, write_workload
from sdd.command import count, parser
from sdd.design.schedules import Manner, draw_schedule, list_links, read_load
from sdd.judge.check_history import Graph, read_history
from sdd.judge.planting import KINDS
from sdd.judge.to_elle import Run, history
from sdd.model.catalogue import Catalogue
from sdd.model.files import BadInput, write_text
from sdd.model.reading import catalogue_at, workload_at
from sdd.model.report import read_report
from sdd.model.workload import Workload
from sdd.programs import Program, add_program

SIZE = 30                   # transactions of a run


class Case(NamedTuple):
    name: str
    catalogue: Catalogue
    work: Workload
    text: str               # the report


def make_cases(program, folder, seed, number):
    """True reports, one design after the other."""
    designs = [(x, design) for x, (application, _) in APPLICATIONS.items() for design in application.DESIGNS]
    for k in range(number):
        kind, design = designs[k % len(designs)]
        paths = write_workload(folder, kind, SIZE, (seed * 1000 + k) % 2**31, design)
        catalogue, load = catalogue_at(paths[0]), read_load(paths[1])
        events = draw_schedule(load, list_links(catalogue, load, design == "audit"), random.Random("%d %d" % (seed, k)), Manner(3, 0.02))
        if k % 3 == 2:
            events = events[:len(events) // 2]
        write_text(paths[1], load.text(events))
        work = workload_at(paths[1], catalogue)
        yield Case("%s %s %d" % (kind, design, k), catalogue, work, program.text(["run"] + paths))


def judge(case, text, folder):
    """What is found wrong with a report, as lines; a report that is refused has one too."""
    path = os.path.join(folder, "judged")
    try:
        write_text(path, text)
        run = Run(read_report(path), case.work, case.catalogue)
        write_text(path, "".join(x + "\n" for x in history(run)))
        graph = Graph(read_history(path))
    except BadInput as fault:
        return ["refused: %s" % fault]
    return graph.faults + (["cycle"] if graph.cycle() else [])


def plant(case, kind, rng, folder):
    """A report with a fault of the kind, or None where it has no place for one."""
    path = os.path.join(folder, "true")
    write_text(path, case.text)
    report = read_report(path)
    run = Run(report, case.work, case.catalogue)
    text = KINDS[kind](case.text.split("\n"), report, run, rng)
    return None if text is None or "\n".join(text) == case.text else "\n".join(text)


class Tally:
    """What was planted and found."""

    def __init__(self, each, show, rng, folder):
        self.each, self.show, self.rng, self.folder = each, show, rng, folder
        self.planted, self.found = dict.fromkeys(KINDS, 0), dict.fromkeys(KINDS, 0)
        self.reports = self.alarms = 0

    def take(self, case):
        """Judges a true report, and plants one fault of each kind in it, as long as one is missing."""
        self.reports += 1
        wrong = judge(case, case.text, self.folder)
        if wrong:
            self.alarms += 1
            self.note("false alarm in %s: %s" % (case.name, wrong[0]))
            return
        for kind in KINDS:
            text = plant(case, kind, self.rng, self.folder) if self.planted[kind] < self.each else None
            if text is not None:
                self.planted[kind] += 1
                reported = judge(case, text, self.folder)
                self.found[kind] += bool(reported)
                self.note("" if reported else "not found in %s: %s" % (case.name, kind))

    def note(self, text):
        if self.show and text:
            print(text)

    def tell(self):
        print("| planted | faults | found |\n|---|---|---|")
        for kind in KINDS:
            print("| %s | %d | %d |" % (kind, self.planted[kind], self.found[kind]))
        print("| all | %d | %d |" % (sum(self.planted.values()), sum(self.found.values())))
        print("\n%d true reports, %d false alarms" % (self.reports, self.alarms))


def main():
    asked = parser(__doc__)
    asked.add_argument("--each", metavar="N", type=count, default=30, help="faults of each kind (30)")
    asked.add_argument("--seed", type=count, default=1, help="where the drawn numbers begin (1)")
    asked.add_argument("--show", action="store_true", help="print each fault that wasn't found")
    add_program(asked)
    asked = asked.parse_args()
    with tempfile.TemporaryDirectory(prefix="faults-") as folder:
        tally = Tally(asked.each, asked.show, random.Random(asked.seed), folder)
        for case in make_cases(Program(asked.program), folder, asked.seed, 4 * max(asked.each, 1)):
            tally.take(case)
    tally.tell()
    return 1 if tally.alarms or tally.found != tally.planted else 0
