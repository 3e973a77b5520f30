"""Judges a report that somebody's own SDD-1 printed, part by part: the first line that differs, and the rule that it breaks.

    sdd grade CATALOGUE WORKLOAD REPORT

The parts of a report (docs/FORMATS.md) are judged one by one: the trace, the order, the replies, what was shipped, what is
pending, the copies, the end. Of each the first line that differs is printed, what it should be, and why. After the first wrong
line of a trace the others may be wrong by that one alone, and so may the parts behind it: mend it first. Ends with 0
where the report is right to the byte, and else with 1. The reference of this package says what is right.
"""
from typing import NamedTuple

from sdd.command import parser
from sdd.model.files import BadInput, text_of
from sdd.model.reading import catalogue_at, workload_at
from sdd.reference.order import committed_in, precedes
from sdd.reference.report import report_text
from sdd.reference.world import Limit, World
from sdd.teach.grading import why_wrong

PARTS = ("trace", "order", "replies", "shipped", "pending", "copies", "end")
BEGINS = {"order": "order", "reply": "replies", "shipped": "shipped", "pending": "pending", "copy": "copies", "end": "end"}
INSIDE = ("query", "row")


class Fault(NamedTuple):
    part: str
    line: int               # from 1; where a line is missing, that behind which it belongs
    told: str               # None where it is missing
    should: str             # None where nothing should stand there
    why: str


def parts_of(text):
    """Part -> its lines, each with its number in the file; lines of no part stand in the part before."""
    found, part = {x: [] for x in PARTS}, "trace"
    for number, line in enumerate(text.split("\n")[:-1] if text.endswith("\n") else text.split("\n"), 1):
        first = line.split(" ")[0]
        if not (first in INSIDE and part in ("replies", "copies")):
            part = "trace" if first.isdigit() else BEGINS.get(first, part)
        found[part].append((number, line))
    return found


def blocks_of(lines):
    """The head of a block -> its lines: replies by their names, copies by their places."""
    found, head = {}, None
    for number, line in lines:
        words = line.split(" ")
        if words[0] in ("reply", "shipped", "pending"):
            head = " ".join(words[:2])
        elif words[0] == "copy":
            head = " ".join(words[:3])
        found.setdefault(head, []).append((number, line))
    return found


class Grader:
    def __init__(self, cat, work):
        self.cat, self.work, self.world = cat, work, World(cat, work)
        try:
            for _ in self.world.happens():
                pass
        except Limit:
            raise BadInput("this run ends by `limit`, and has no report") from None
        self.right = report_text(self.world)

    def faults(self, text):
        """The first fault of each part; none of a part that is right."""
        if text == self.right:
            return []
        told, should = parts_of(text), parts_of(self.right)
        made = [self.of_trace(told["trace"], should["trace"]), self.of_order(told["order"], should["order"])]
        made += [self.of_blocks(part, told[part], should[part]) for part in ("replies", "shipped", "pending", "copies")]
        made.append(of_lines("end", told["end"], should["end"], lambda number, a, b: "a report ends with `end`"))
        found = [x for x in made if x]
        if not found:
            found.append(self.of_places(text))
        return found

    def of_trace(self, told, should):
        return of_lines("trace", told, should, lambda k, due, line: why_wrong(self.cat, self.work, k, due, line) if line is not None else "it is missing")

    def of_order(self, told, should):
        right = should[0][1]
        line = told[0][1] if told else None
        if line == right and len(told) == 1:
            return None
        number = told[0][0] if told else len(self.world.records)
        why = "it is missing" if line is None else "there is one order line" if line == right else self.why_order(line.split(" ")[1:], right.split(" ")[1:])
        return Fault("order", number, line, right, why)

    def why_order(self, names, right):
        """Which two stand the wrong way round."""
        if sorted(names) != sorted(right):
            strange = [x for x in names if x not in right] + [x for x in right if x not in names]
            return "it has each committed transaction once: %s" % (strange[0] if strange else "one stands twice")
        by_name = {self.work.txns[x.number - 1].name: x for x in committed_in(self.cat, self.world.records)}
        for k, first in enumerate(names):
            for second in names[k + 1:]:
                why = why_before(by_name[second], by_name[first])
                if why:
                    return "%s comes before %s: %s" % (second, first, why % (second, first))
        k = next(k for k, (a, b) in enumerate(zip(names, right)) if a != b)
        return "of those that may come next the one with the least timestamp does: %s (%d) before %s (%d)" % (
            right[k], by_name[right[k]].time, names[k], by_name[names[k]].time)

    def of_blocks(self, part, told, should):
        """Compares block by block, whatever the order of the blocks."""
        mine, right = blocks_of(told), blocks_of(should)
        for head, lines in right.items():
            if head not in mine:
                last = max([n for n, _ in told], default=0)
                return Fault(part, last, None, lines[0][1], "`%s` is missing" % head)
            fault = of_lines(part, mine[head], lines, lambda k, a, b: WHY[part])
            if fault:
                return fault
        strange = [lines[0] for head, lines in mine.items() if head not in right]
        return Fault(part, strange[0][0], strange[0][1], None, WHY[part]) if strange else None

    def of_places(self, text):
        """The lines are right, and stand in another order."""
        for k, (line, right) in enumerate(zip(text.split("\n"), self.right.split("\n")), 1):
            if line != right:
                return Fault("places", k, line, right, "the line is right, and stands in another place: replies and what was shipped stand in the serial order")
        return Fault("places", text.count("\n") + 1, None, "", "the last line ends with a newline")


WHY = {"replies": "a reply is what one plain database answers in the serial order",
       "shipped": "it tells how many values and rows were shipped to the module for the committed attempt",
       "pending": "it tells what is submitted and not committed, and what that waits for",
       "copies": "of each row a copy keeps the change with the greatest timestamp of those that were applied there"}


def of_lines(part, told, should, why):
    for k in range(max(len(told), len(should))):
        line, right = (x[k][1] if k < len(x) else None for x in (told, should))
        if line != right:
            number = told[k][0] if k < len(told) else (told[-1][0] if told else 0)
            return Fault(part, number, line, right, why(k, right, line))
    return None


def why_before(x, y):
    """Why the one precedes the other in a serial order; None where it doesn't."""
    if not precedes(x, y):
        return None
    if x.cls == y.cls and x.time < y.time:
        return "%s and %s are of one class, and run one after the other"
    if any(f in y.writes and y.number not in x.seen[f] for f in x.reads):
        return "%s doesn't see what %s changes"
    if any(f in x.writes and x.number in y.seen[f] for f in y.reads):
        return "what %s changes, %s sees"
    return "both change the same fragment, and the timestamp of %s is less than that of %s"


def print_faults(path, faults, right):
    if not faults:
        print("%s: right to the byte, %d lines" % (path, right.count("\n")))
        return
    wrong = {x.part: x for x in faults}
    for part in (*PARTS, "places"):
        if part not in wrong:
            if part != "places":
                print("%-8s right" % part)
            continue
        x = wrong[part]
        print("%-8s line %d: %s" % (part, x.line, x.why))
        print("         told       %s" % ("nothing" if x.told is None else x.told))
        print("         should be  %s" % ("nothing" if x.should is None else x.should))


def read_grader(catalogue_path, workload_path):
    cat = catalogue_at(catalogue_path)
    return Grader(cat, workload_at(workload_path, cat))


def main():
    asked = parser(__doc__)
    for name in ("catalogue", "workload", "report"):
        asked.add_argument(name, metavar=name.upper())
    asked = asked.parse_args()
    grader = read_grader(asked.catalogue, asked.workload)
    faults = grader.faults(text_of(asked.report).removeprefix("\ufeff").replace("\r\n", "\n"))
    print_faults(asked.report, faults, grader.right)
    return int(bool(faults))
