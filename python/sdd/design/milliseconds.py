"""Many timed runs of one design, of which the program carries out a share.

    explored = explore_times(Design(catalogue, workload), distances, asked)

A run submits what the workload submits, in its order, at drawn times, and keeps its ticks, downs, ups, settles and
further class lists between. Each is a schedule that `sdd1 run` takes: of a share the trace that it prints is compared
line by line with that of the run here, and `sdd1 verify` judges the report.
"""
import os
import random
from typing import NamedTuple

from sdd.design.latencies import Latencies
from sdd.design.plans import Plans
from sdd.design.schedules import read_load
from sdd.design.timed import TimedRun
from sdd.design.timed_links import LinkedRun
from sdd.model import workload
from sdd.model.files import BadInput, write_text
from sdd.model.reading import catalogue_at, workload_at

KEPT = ("submit", "tick", "down", "up")
MOST_EVENTS = workload.MAX_EVENTS


class Explored(NamedTuple):
    name: str
    latencies: Latencies
    protocols: dict         # P1, P2, P3 -> how many reads
    transactions: int
    packets: float          # that arrived for each commit, with the acknowledgements
    checked: int            # how many runs the program carried out


class Design:
    """A catalogue and a workload, and the plans of its transactions."""

    def __init__(self, catalogue_path, workload_path, cat, work):
        self.catalogue_path, self.workload_path, self.cat, self.work = catalogue_path, workload_path, cat, work
        self.plans = Plans(cat, work)

    @staticmethod
    def of_files(catalogue_path, workload_path):
        return Design(catalogue_path, workload_path, *demand_read(catalogue_path, workload_path))

    def phases(self, every, rng):
        """The events with their times, which begin anew behind each settle."""
        made, time = [[]], 0.0
        for event in self.work.events:
            if event.word in ("settle", "redeclare"):
                made.append([(0.0, event)] if event.word == "redeclare" else [])
                time = 0.0
            elif event.word in KEPT:
                time += rng.expovariate(1 / every) if event.word == "submit" and every else 0.0
                made[-1].append((time, event))
        return [x for x in made if x]

    def run(self, distances, seed, is_traced=False):
        rng = random.Random(seed)
        parts = self.plans, distances.for_catalogue(self.cat), self.phases(distances.every, rng), rng
        return LinkedRun(*parts, is_traced) if is_traced or distances.loss else TimedRun(*parts)

    def protocols(self):
        made = {"P1": 0, "P2": 0, "P3": 0}
        for entry in self.plans.table:
            if entry.edge.kind == "diagonal":
                made[entry.protocol] += 1
        return made

    def text_of_run(self, run):
        """The workload that `sdd1 run` takes to carry out this run."""
        return read_load(self.workload_path).text(run.schedule + ["settle"])


def demand_read(catalogue_path, workload_path):
    """The catalogue and the workload of two files, which submits something."""
    cat = catalogue_at(catalogue_path)
    work = workload_at(workload_path, cat)
    if not work.submitted():
        raise BadInput("%s: it submits nothing" % workload_path)
    return cat, work


def check_run(design, run, program, folder):
    """Refuses a run that the program carries out in another way, or whose report `verify` refuses."""
    paths = [os.path.join(folder, x) for x in ("timed", "report")]
    write_text(paths[0], design.text_of_run(run))
    text = program.text(["run", design.catalogue_path, paths[0]])
    write_text(paths[1], text)
    trace = text.split("\n")
    for k, line in enumerate(run.trace):
        if trace[k] != line:
            raise BadInput("a timed run isn't that of the program: line %d is `%s` and not `%s`" % (k + 1, trace[k], line))
    if not trace[len(run.trace)].startswith("order"):
        raise BadInput("a timed run isn't that of the program: it ends before `%s`" % trace[len(run.trace)])
    verdict = program.text(["verify", design.catalogue_path, *paths]).strip()
    if verdict != "yes":
        raise BadInput("`verify` says %s of a timed run" % verdict)


def explore_times(design, distances, by, runs, seed, checks=0, program=None, folder=None, tell=lambda text: None, ways=None):
    """The figures of so many runs, of which the first `checks` are carried out by the program too."""
    found, checked = Latencies(by, ways), 0
    for k in range(runs):
        run = design.run(distances, "%d %d" % (seed, k), is_traced=k < checks)
        found.take(run)
        if run.trace is not None and len(run.schedule) + 1 <= MOST_EVENTS:
            check_run(design, run, program, folder)
            checked += 1
        if k % 20 == 0:
            tell("%s: %d of %d runs" % (design.catalogue_path, k, runs))
    commits = sum(x.commits for x in found.groups.values())
    packets = found.packets / max(1, commits)
    return Explored(design.catalogue_path, found, design.protocols(), len(design.work.submitted()), packets, checked)
