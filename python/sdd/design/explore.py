"""Runs the submissions of a workload under many schedules, and reports which transactions wait, for whom and how long.

    sdd explore CATALOGUE WORKLOAD [CATALOGUE2 WORKLOAD2 ..] (--link MS | --near T1-D1=MS .. | --times FILE) [--service D1=MS ..]
                     [--every MS | --rate N] [--jitter PERCENT] [--loss PERCENT] [--resend MS] [--runs N] [--seed SEED] [--by class|kind] [--check N]
                     [--json | --csv] [--picture FILE] [--worst FILE] [--program COMMAND]
    sdd explore CATALOGUE WORKLOAD [CATALOGUE2 WORKLOAD2] [--runs N] [--seed SEED] [--pace N]
                     [--faults PERCENT] [--by class|kind] [--picture FILE] [--program COMMAND]

In the first form the links have times, and all figures are milliseconds, with p50, p95 and p99. A message takes --link (20) between
two sites, or what --near says of these two, and up to --jitter percent more (10); a site handles one message after the other, each in
--service; submissions come at random, --every milliseconds apart on the average (10), or --rate in a second. Of 100 packets --loss are
lost (0), and what isn't acknowledged after --resend milliseconds (200) is sent again. --times is a TOML file of all that, with places
(the head of sdd/design/times.py has its form; docs/DESIGN.md an example). The table has what reads waited that had to, what transactions
queued before they began, and how long it took from the submission to the commit; `busy` is the part of the time in which the class had
an attempt under way. Two designs stand below each other, more in a line each. --check is how many of the runs `sdd1` carries out
too, whose trace has to be the same, and whose report is verified: a fiftieth. --worst writes the run with the slowest transaction.

In the second form times are in rounds. Each schedule submits what the workload submits, in its order, and keeps its ticks, downs, ups and settles
between them; the deliveries are drawn from SEED. Where all schedules in which packets arrive in their
order are no more than N, those are taken, and nothing is drawn.

A table has a line for each class (`-` is that of transactions that no class covers) or for each kind of
transaction: its name without the digits at its end.

    attempts/commit   1 where no read was rejected
    waits/attempt     how often a read of an attempt had to wait at a data module
    waited            how long such a read waited: the median, and the worst
    queued            how long it took from the submission to the first attempt: transactions of one class
                      run one after the other
    to commit         how long it took from the submission to the commit: the median, and the worst
    rows, values      what was shipped for the committed attempt, on the average

Times are in rounds. In a round each link between two sites that work delivers about one packet, so it is
as many events as there are links; with --events times are in events. A second table has the pairs of a
class that waits and a class for which it waits. A second design is compared with the first one side by
side, and the changes of the protocol table are listed. The picture (SVG) has the distributions of both times.

The line above the table has the packets that arrived for each commit, with their acknowledgements.

Where the workload leaves a module down at its end, a last list has what isn't committed then, and on which of these
modules it may hang: that of its class, one at which its class reads, or one that a class needs for which it waits, two
and more steps away.

--pace is how many rounds lie between two submissions, on the average (4): the less, the more transactions
are under way at once. --faults is how many of 100 events lose, repeat or resend packets (0).
"""
import os
import random
import re
import sys
import tempfile
from typing import NamedTuple

from sdd.command import count, parser
from sdd.design import distributions, explore_times
from sdd.design.figures import as_json, collect_drains, collect_figures, kind_of, print_comparison, print_design
from sdd.design.hanging import collect_pending, print_pending
from sdd.design.observed import observe
from sdd.design.protocols import print_changes, print_protocols, read_protocols
from sdd.design.schedules import Manner, draw_schedule, enumerate_schedules, list_links, read_load
from sdd.model.files import BadInput, write_text
from sdd.model.reading import catalogue_at, workload_at
from sdd.programs import Program, add_program, demand_text
from sdd.reference.plain import class_for

BATCH = 50
USUAL_PACE = 4              # rounds between two submissions
LAST = "lose T1 D1 1"       # finds nothing after a settle, and so tells how many events there were


class Design(NamedTuple):
    name: str
    figures: dict           # class or kind -> Figures
    pairs: dict             # class or kind that waits, class that is waited for -> times
    drains: list            # the times of transactions that no class covers
    protocols: dict
    runs: int
    complete: bool          # whether these are all schedules
    links: int
    transactions: int
    packets: float          # that arrived, for each commit
    pending: list           # of what isn't committed at the end, where a module is down: Pending


class Explorer:
    """The runs of one design."""

    def __init__(self, program, catalogue, workload, folder):
        self.program, self.path, self.folder = program, catalogue, folder
        self.catalogue = catalogue_at(catalogue)
        self.work, self.load = workload_at(workload, self.catalogue), read_load(workload)
        if not self.load.submitted():
            raise BadInput("%s: it submits nothing" % workload)
        self.links = list_links(self.catalogue, self.load, self.has_undeclared())

    def has_undeclared(self):
        """Whether the site of transactions that no class covers may have work; with further class lists it may."""
        return bool(self.work.lists) or any(class_for(self.catalogue, self.work.txns[n - 1]) == 0 for n in self.work.submitted())

    def texts(self, schedules):
        paths = []
        for k, events in enumerate(schedules):
            paths.append(os.path.join(self.folder, "work%d" % k))
            write_text(paths[-1], self.load.text(events + [LAST]))
        words = ["run", self.path, "{}"]
        return [demand_text(x, words) for x in self.program.ask_all(words, paths)]

    def observed(self, schedules):
        return [observe(x) for x in self.texts(schedules)]

    def flying(self, events, links):
        """The links with a packet in flight: a loss there finds one."""
        text = self.texts([events + ["lose %s %s 1" % x for x in links]])[0]
        empty = {int(x) for x in re.findall(r"^(\d+) nothing$", text, flags=re.M)}
        return [x for k, x in enumerate(links, len(events) + 1) if k not in empty]

    def schedules(self, asked):
        """The schedules, and whether they are all."""
        if len(self.load.submitted()) <= 3:
            whole = enumerate_schedules(self.load, self.links, self.flying, asked.runs)
            if whole is not None:
                return whole, True
        manner = Manner(USUAL_PACE if asked.pace is None else asked.pace, asked.faults / 100)
        return [draw_schedule(self.load, self.links, random.Random("%d %d" % (asked.seed, k)), manner) for k in range(asked.runs)], False

    def explore(self, asked):
        schedules, complete = self.schedules(asked)
        observed = []
        for k in range(0, len(schedules), BATCH):
            tell_progress("%s: %d of %d runs" % (self.path, k, len(schedules)))
            observed += self.observed(schedules[k:k + BATCH])
        tell_progress("")
        unit = 1 if asked.events else len(self.links)
        figures, pairs = collect_figures(observed, asked.by, unit)
        table = self.program.text(["table", self.path])
        packets = sum(self.packets(x) for x in observed) / max(1, sum(x.commits() for x in observed))
        pending = collect_pending(self.catalogue, self.work, self.load.events, observed, lambda name, cls: cls if asked.by == "class" else kind_of(name))
        return Design(self.path, figures, pairs, collect_drains(observed, unit), read_protocols(table), len(schedules), complete,
                      len(self.links), len(self.load.submitted()), packets, pending)

    def packets(self, observed):
        """How many packets arrived: events that found something to do, but for submissions, ticks, downs and ups."""
        return observed.events - observed.idle - sum(x != "settle" for x in self.load.events)


def tell_progress(text):
    """On a terminal the line is written over the one before."""
    if sys.stderr.isatty():
        sys.stderr.write("\r\x1b[K" + text)
        sys.stderr.flush()


def positive(word):
    number = float(word)
    if not 0 <= number <= 1000:
        raise ValueError
    return number


positive.__name__ = "number"


def read_words():
    asked = parser(__doc__)
    asked.add_argument("files", metavar="FILE", nargs="+")
    asked.add_argument("--runs", metavar="N", type=count, default=200, help="how many schedules (200)")
    asked.add_argument("--seed", type=count, default=1, help="where the drawn numbers begin (1)")
    asked.add_argument("--pace", metavar="N", type=positive, help="rounds between two submissions (4)")
    asked.add_argument("--faults", metavar="PERCENT", type=positive, default=0, help="losses, repetitions, resends (0)")
    asked.add_argument("--by", choices=["class", "kind"], help="without it kinds, where there are two designs and few kinds")
    asked.add_argument("--events", action="store_true", help="tell events, not rounds")
    asked.add_argument("--picture", metavar="FILE", help="draw the distributions")
    explore_times.add_times(asked)
    add_program(asked)
    asked = asked.parse_args()
    explore_times.demand_timed(asked)
    if len(asked.files) % 2 or len(asked.files) > 4 and not explore_times.is_timed(asked):
        raise BadInput("it takes a catalogue and a workload, or two of each; with times of links any number")
    if asked.runs == 0 or asked.faults > 100:
        raise BadInput("--runs is 1 or more, and --faults at most 100")
    return asked


def kinds_of(path):
    return {re.sub(r"_?\d+$", "", x) for x in read_load(path).submitted()}


def main():
    asked = read_words()
    if explore_times.is_timed(asked):
        explore_times.explore(asked, tell_progress)
        return
    if asked.by is None:
        few = len(asked.files) == 4 and all(len(kinds_of(x)) <= 24 for x in asked.files[1::2])
        asked.by = "kind" if few else "class"
    program = Program(asked.program)
    designs = []
    with tempfile.TemporaryDirectory(prefix="explore-") as folder:
        for k in range(0, len(asked.files), 2):
            explorer = Explorer(program, asked.files[k], asked.files[k + 1], folder)
            designs.append(explorer.explore(asked))
    unit = "events" if asked.events else "rounds"
    if asked.json:
        print(as_json(designs, asked.by, unit))
    elif len(designs) == 1:
        print_design(designs[0], asked.by, unit)
        print_pending(designs)
        print_protocols(designs[0].protocols)
    else:
        print_comparison(designs, asked.by, unit)
        print_pending(designs)
        print_changes(designs[0].protocols, designs[1].protocols)
    if asked.picture:
        write_text(asked.picture, distributions.draw_distributions(designs, asked.by, unit))
