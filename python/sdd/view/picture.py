"""Draws what happened in a run: the records of a report of `run`, as a picture (SVG).

    sdd picture REPORT [CATALOGUE [WORKLOAD]] [--from EVENT] [--to EVENT] [--title TEXT] [--into FILE]

Time goes from left to right, a column for each event that has a record. There is a lane for each class,
with an attempt from its start to its commit, and one for each data module, with the reads that came
there, the changes that were applied, and the times that classes passed. Below stands the serial order.
CATALOGUE adds the transaction module of each class, and all its classes and modules, in their order;
without it the lanes are those of which the report speaks. WORKLOAD adds what the network does: packets
that are lost or repeated, modules that are down, and the class lists that are put in force,
with the modules of their classes; the numbers of these events are reported by the programs that sdd page
takes. Of a long report the first 120 columns are drawn where --from and --to
name no others. Under the pointer each mark tells its line of the report.
"""
import sys

from sdd.command import parser
from sdd.model.files import BadInput, bytes_of
from sdd.model.reading import catalogue_at, workload_at
from sdd.model.report import read_report
from sdd.programs import find_programs
from sdd.view.lanes import APPLIES, PASSES, READS, SERVED, WAITING, Columns, Item, Lane, Trace
from sdd.view import network
from sdd.view.page import add_programs
from sdd.view.states import list_classes, read_parts, read_text
from sdd.view import svg

MOST_COLUMNS = 120
TOP, ROW, GAP, LEAST_WIDTH = 46, 17, 8, 540
REFUSED = "#c62828"
STYLE = """
text{font-family:'DejaVu Sans',Verdana,sans-serif;font-size:10px;fill:#222}
.h{font-size:12px;font-weight:bold}.s{fill:#777;font-size:9px}.n{text-anchor:middle}.e{text-anchor:end}
.x{font-weight:bold;fill:#c62828}.lane{fill:#f5f5f2}.grid{stroke:#e2e2de}.bar{fill-opacity:.22;stroke-width:1.3}
.no{stroke-dasharray:4 2;fill:#c62828;fill-opacity:.1}.wait{fill:#fff;stroke-width:1;stroke-dasharray:3 2}
.queue{stroke-width:1.2;stroke-dasharray:1 3;fill:none}.way{fill:none;stroke-width:.8;opacity:.45}
.pass{stroke:#999;stroke-width:1.2}
"""
LEGEND = {"submit": "given to its site", "bar": "an attempt, from its start to its commit", "no": "an attempt that is rejected",
          "wait": "a read waits for these classes to pass these times", "answer": "a read is answered", "reject": "a read is rejected",
          "apply": "changes are applied", "held": "changes that were held behind the read", "pass": "a class passes a time", "lose": "a packet is lost", "repeat": "a packet is repeated",
          "down": "the module is down", "redeclare": "a class list is put in force"}


class Picture:
    def __init__(self, report, catalogue, marks, events):
        first, last = events[0], events[-1]
        self.trace, self.catalogue = Trace(report, first, last), catalogue
        self.first, self.last, self.marks = first, last, marks
        self.lanes, self.anchors, self.kinds = {}, {}, set()
        self.name_lanes()
        self.left = 50 + max(90, *(1.35 * svg.width_of(x.title) for x in self.lanes.values()))
        self.columns = Columns(events, self.left)
        self.records = [x for x in report.records if self.columns.has(x.event) and x.kind != "nothing"]

    def name_lanes(self):
        """Classes, then data modules: those of the catalogue, or those that the report names."""
        report, trace = self.trace.report, self.trace
        homes = {x.name: x.site for x in self.catalogue.classes} if self.catalogue else {}
        classes = list(homes)
        classes += [x for x in dict.fromkeys(map(trace.class_of, trace.submits)) if x not in classes and x != "-"]
        sites = {x.site for x in report.records if x.site} | {site for site, _ in report.copies}
        if self.catalogue:
            sites |= {"D%d" % (k + 1) for k in range(self.catalogue.dms)}
        for cls in classes:
            self.lanes["class", cls] = Lane(cls, homes.get(cls, ""))
        if any(trace.class_of(x) == "-" for x in trace.submits):
            self.lanes["class", "-"] = Lane("no class", "U")
        for site in sorted(sites, key=lambda x: int(x[1:])):
            self.lanes["module", site] = Lane(site)

    # One method a kind of mark; each puts items into lanes.

    def add_transactions(self):
        for txn, submit in self.trace.submits.items():
            lane = self.lanes["class", self.trace.class_of(txn)]
            start = self.trace.starts.get((txn, 1))
            if self.columns.has(submit.event) or self.is_open(submit, start):
                self.add_submit(lane, txn, submit, start)
        for start in self.trace.starts.values():
            self.add_attempt(self.lanes["class", start.cls], start)

    def is_open(self, begin, end):
        """Whether what lies between two records reaches into the window."""
        return begin.event <= self.last and (end is None or end.event >= self.first)

    def add_submit(self, lane, txn, submit, start):
        if start and start.event == submit.event:
            return
        colour, x = self.trace.colour(txn), self.columns.x(submit.event)
        until = self.columns.x(start.event) if start and start.event <= self.last else self.columns.right
        reported = submit.line
        if txn in self.trace.pending and not start:
            reported += "\npending %s %s" % (txn, " ".join(self.trace.pending[txn].words))

        def mark(y):
            return [self.triangle(x, y, colour, reported), svg.label(x + 7, y - 2, txn)]

        def draw(y):
            path = "M%s %sH%s" % (svg.number(x), svg.number(y), svg.number(until))
            return [svg.shape("path", "queue", reported, d=path, stroke=colour)] + mark(y)
        self.kinds.add("submit")
        end = x + 9 + svg.width_of(txn)
        short = Item(x - 5, end, mark) if self.columns.has(submit.event) else None
        lane.add(WAITING, Item(x - 5, max(until, end), draw, short=short))

    def triangle(self, x, y, colour, reported=None):
        return svg.shape("path", "", reported, d="M%s %sl-4 -7h8z" % (svg.number(x), svg.number(y + 4)), fill=colour)

    def add_attempt(self, lane, start):
        key = (start.txn, start.attempt)
        commit = self.trace.commits.get(start.txn)
        again = self.trace.starts.get((start.txn, start.attempt + 1))
        end = commit if commit and commit.attempt == start.attempt else again or self.trace.rejects.get(key)
        if not self.is_open(start, end):
            return
        x, colour, name = self.columns.x(start.event), self.trace.colour(start.txn), "%s#%d" % key
        over = end is not None and end.event <= self.last
        if end is None:
            name += " pending: " + " ".join((self.trace.pending[start.txn].kind,) + self.trace.pending[start.txn].words)
        right = self.columns.x(end.event) if over else self.columns.right
        right = max(right - (3 if over and end is again else 0), x + 8)
        inside = svg.width_of(name) + 6 <= right - x
        reported = start.line + ("\n" + end.line if end else "\npending")
        refused = end is not commit and key in self.trace.rejects
        style = "bar no" if refused else "bar"
        at_once = self.columns.has(start.event) and self.trace.submits[start.txn].event == start.event

        self.kinds |= {"no" if refused else "bar"} | ({"submit"} if at_once else set())

        def draw(y):
            shapes = [self.bar(style, x, right, y, colour, reported, open_end=not over)]
            if at_once:
                shapes.append(self.triangle(x, y - 8, colour))
            return shapes + [svg.label(x + 4 if inside else right + 3, y + 3.5, name)]
        anchors = {("start",) + key: x} if self.columns.has(start.event) else {}
        if over and end is commit:
            anchors["commit", start.txn] = right
        lane.add(SERVED, Item(x - (4 if at_once else -0.1), right + (0 if inside else 6 + svg.width_of(name)), draw, anchors))

    def bar(self, style, left, right, y, colour, reported, open_end=False):
        """A bar; what isn't over at the right is open there."""
        if open_end:
            path = "M%s %sH%sV%sH%s" % tuple(svg.number(v) for v in (right, y - 6, left, y + 6, right))
            return svg.shape("path", style, reported, d=path, stroke=colour, fill=colour)
        return svg.shape("rect", style, reported, x=left, y=y - 6, width=right - left, height=12, rx=2, stroke=colour, fill=colour)

    def add_reads(self):
        for x in self.trace.report.records:
            if x.kind == "arrive":
                self.add_read(x)

    def add_read(self, arrive):
        key = (arrive.txn, arrive.attempt, arrive.site)
        wait, end = self.trace.waits.get(key), self.trace.ends.get(key)
        if not self.is_open(arrive, end):
            return
        x, colour = self.columns.x(arrive.event), self.trace.colour(arrive.txn)
        over = end is not None and end.event <= self.last
        right = self.columns.x(end.event) if over else self.columns.right
        name = "%s#%d" % key[:2]
        until = wait and " ".join("%s %d" % pair for pair in wait.waits)
        said = "%s waits: %s" % (name, until) if wait else name
        if end and end.kind == "reject":
            said += " rejected: %s %d" % (end.cls, end.time)
        room = right - x - 12
        short = said.replace(" waits:", ":")
        if wait and svg.width_of(said) > room > 60:
            said = short if svg.width_of(short) <= room else short[:int(room / svg.CHARACTER) - 2] + ".."
        inside = wait and svg.width_of(said) <= room
        reported = "\n".join(v.line for v in (arrive, wait, end) if v)
        self.kinds |= {v.kind for v in (wait, end) if v}

        def draw(y):
            shapes = [self.bar("wait", x, right, y, colour, reported, open_end=not over)] if wait else []
            if over:
                shapes.append(self.end_of_read(end, right, y, colour, reported))
            elif not wait:
                shapes.append(svg.shape("circle", "", reported, cx=x, cy=y, r=2.5, fill=colour))
            return shapes + [svg.label(x + 4 if inside else right + 7, y + 3.5, said)]
        anchors = {("arrive",) + key: x} if self.columns.has(arrive.event) else {}
        if over:
            anchors[(end.kind,) + key] = right
        self.lanes["module", arrive.site].add(READS, Item(x - 5, right + (6 if inside else 9 + svg.width_of(said)), draw, anchors))

    def end_of_read(self, end, x, y, colour, reported):
        if end.kind == "answer":
            return svg.shape("circle", "", reported, cx=x, cy=y, r=4.5, fill=colour)
        path = "M%s %sl8 8m0 -8l-8 8" % (svg.number(x - 4), svg.number(y - 4))
        return svg.shape("path", "", reported, d=path, stroke=REFUSED, stroke_width="2.2")

    def add_applies(self):
        for x in self.records:
            if x.kind == "apply":
                self.add_apply(x, self.columns.x(x.event), self.trace.colour(x.txn), self.trace.held(x))
            elif x.kind == "pass":
                self.add_pass(x, self.columns.x(x.event))

    def add_apply(self, record, x, colour, held):
        name = record.txn + (" (held)" if held else "")
        self.kinds.add("held" if held else "apply")

        def draw(y):
            mark = svg.shape("rect", "", record.line, x=x - 4, y=y - 4, width=8, height=8, fill=colour)
            ring = [svg.shape("rect", "", x=x - 6.5, y=y - 6.5, width=13, height=13, fill="none", stroke=REFUSED)] if held else []
            return [mark] + ring + [svg.label(x + 8, y + 3.5, name)]
        self.lanes["module", record.site].add(APPLIES, Item(x - 7, x + 10 + svg.width_of(name), draw, {("apply", record.txn, record.site): x}))

    def add_pass(self, record, x):
        cls = "no class" if record.cls == "-" else record.cls
        name = "%s %d" % (cls, record.time)
        self.kinds.add("pass")

        def draw(y):
            return [svg.shape("path", "pass", record.line, d="M%s %sv8" % (svg.number(x), svg.number(y - 4))),
                    svg.label(x + 3, y + 3, name, "s")]
        self.lanes["module", record.site].add(PASSES, Item(x - 2, x + 5 + svg.width_of(name) * 0.9, draw))

    # The whole.

    def draw(self, title):
        self.add_transactions()
        self.add_reads()
        self.add_applies()
        network.add_marks(self, self.marks)
        y, ground, marks, right = TOP, [], [], self.columns.right + 10
        for lane in self.lanes.values():
            rows = lane.rows()
            height = ROW * len(rows) + 6
            ground.append((y, height, lane))
            for k, row in enumerate(rows):
                middle = y + 3 + ROW * (k + 0.5) + 1
                for item in row:
                    marks += item.draw(middle)
                    right = max(right, item.right + 6)
                    self.anchors.update({name: (x, middle) for name, x in item.anchors.items()})
            y += height + GAP
        shapes = [svg.label(12, 18, title, "h")] if title else []
        for top, height, lane in ground:
            shapes += [svg.shape("rect", "lane", x=self.left - 6, y=top, width=right - self.left + 6, height=height),
                       svg.label(self.left - 12, top + 15, lane.title, "h e"), svg.label(14, top + 15, lane.site, "s")]
        shapes += self.axis(y - GAP) + network.list_lines(self, TOP - 4, y - GAP) + self.ways() + marks
        y, more = self.order_strip(y + 14, right)
        shapes += more
        y, more = self.legend(y + 8, right)
        return svg.whole(max(right, LEAST_WIDTH) + 4, y, STYLE, shapes + more)

    def axis(self, bottom):
        shapes, reported = [], 0
        for event in self.columns.all:
            x, half = self.columns.x(event), svg.width_of(str(event)) * 0.45 + 2
            shapes.append(svg.shape("path", "grid", d="M%s %sV%s" % (svg.number(x), TOP - 4, svg.number(bottom))))
            if x - half > reported:
                shapes.append(svg.label(x, TOP - 8, str(event), "s n"))
                reported = x + half
        return [svg.label(self.left - 12, TOP - 8, "event", "s e")] + shapes

    def ways(self):
        """Thin lines from a start to where its reads come, from a commit to where it is applied, and from
        where a read is rejected to the next start."""
        if len(self.columns.all) > 60:
            return []
        shapes = []
        for name, (x, y) in self.anchors.items():
            begin, colour = None, self.trace.colour(name[1])
            if name[0] == "arrive":
                begin = self.anchors.get(("start", name[1], name[2]))
            elif name[0] == "apply":
                begin = self.anchors.get(("commit", name[1]))
            elif name[0] == "reject":
                begin, colour = self.anchors.get(("start", name[1], name[2] + 1)), REFUSED
            if begin:
                path = "M%s %sL%s %s" % tuple(svg.number(v) for v in (begin[0], begin[1] + 6, x, y - 4))
                shapes.append(svg.shape("path", "way", d=path, stroke=colour))
        return shapes

    def order_strip(self, y, right):
        """The serial order: of those that are seen in the window, each with its place."""
        seen = {x.txn for x in self.records if x.txn}
        shapes, x = [svg.label(self.left - 12, y + 12, "serial order", "e")], self.left
        for place, txn in enumerate(self.trace.report.order, 1):
            if txn not in seen:
                continue
            text = "%d %s" % (place, txn)
            width = svg.width_of(text) + 12
            if x + width > max(right, self.left + 400):
                x, y = self.left, y + 22
            colour = self.trace.colour(txn)
            shapes.append(svg.shape("rect", "bar", x=x, y=y, width=width, height=17, rx=3, fill=colour, stroke=colour))
            shapes.append(svg.label(x + 6, y + 12, text))
            x += width + 5
        return y + 24, shapes

    def legend(self, y, right):
        shapes, x = [], 14
        for kind, text in LEGEND.items():
            if kind not in self.kinds:
                continue
            width = 34 + svg.width_of(text) * 0.9
            if x + width > max(right, LEAST_WIDTH):
                x, y = 14, y + 16
            shapes += self.sample(kind, x + 9, y + 6) + [svg.label(x + 22, y + 9, text, "s")]
            x += width
        return y + 20, shapes

    def sample(self, kind, x, y):
        if kind == "submit":
            return [self.triangle(x, y, "#555")]
        if kind in ("lose", "repeat", "down", "redeclare"):
            return network.sample(kind, x, y)
        if kind in ("bar", "no", "wait"):
            style = {"bar": "bar", "no": "bar no", "wait": "wait"}[kind]
            return [svg.shape("rect", style, x=x - 9, y=y - 5, width=18, height=10, rx=2, stroke="#555", fill="#555")]
        if kind == "answer":
            return [svg.shape("circle", "", cx=x, cy=y, r=4.5, fill="#555")]
        if kind == "reject":
            return [svg.shape("path", "", d="M%s %sl8 8m0 -8l-8 8" % (svg.number(x - 4), svg.number(y - 4)), stroke=REFUSED, stroke_width="2.2")]
        if kind == "pass":
            return [svg.shape("path", "pass", d="M%s %sv8" % (svg.number(x), svg.number(y - 4)))]
        square = svg.shape("rect", "", x=x - 4, y=y - 4, width=8, height=8, fill="#555")
        if kind == "held":
            return [square, svg.shape("rect", "", x=x - 6.5, y=y - 6.5, width=13, height=13, fill="none", stroke=REFUSED)]
        return [square]


def window(report, marks, first, last):
    """The events to be drawn: those asked for, and no more than fit."""
    events = sorted({x.event for x in report.records if x.kind != "nothing"} | {x.event for x in marks})
    if not events:
        raise BadInput("the report has no record: nothing to draw")
    first = events[0] if first is None else first
    chosen = [x for x in events if x >= first and (last is None or x <= last)]
    if not chosen:
        asked = "from event %d %s" % (first, "on" if last is None else "to %d" % last)
        raise BadInput("no record %s; the report has them from %d to %d" % (asked, events[0], events[-1]))
    if len(chosen) > MOST_COLUMNS:
        chosen = chosen[:MOST_COLUMNS]
        print("events %d to %d of %d are drawn; --from and --to choose others" % (chosen[0], chosen[-1], events[-1]), file=sys.stderr)
    return chosen


def marks_of_run(report, asked):
    """What the network does in the run, and the classes of the workload's lists."""
    if not asked.workload:
        return [], []
    programs = find_programs(asked.program, asked.inside)
    first, lines = read_text(programs.tell_inside([asked.catalogue, asked.workload]))
    network.judge_run(report, lines)
    parts = read_parts(bytes_of(asked.workload).decode())
    return network.marks_of(first, lines), [x["name"] for x in list_classes(parts)]


def main():
    asked = parser(__doc__)
    asked.add_argument("report", metavar="REPORT")
    asked.add_argument("catalogue", metavar="CATALOGUE", nargs="?")
    asked.add_argument("workload", metavar="WORKLOAD", nargs="?")
    asked.add_argument("--from", dest="first", type=int, metavar="EVENT", help="the first event that is drawn")
    asked.add_argument("--to", dest="last", type=int, metavar="EVENT", help="the last event that is drawn")
    asked.add_argument("--title", default="", help="what stands above")
    asked.add_argument("--into", metavar="FILE", help="the picture's file; without it standard output")
    add_programs(asked)
    asked = asked.parse_args()
    report = read_report(asked.report)
    catalogue = catalogue_at(asked.catalogue) if asked.catalogue else None
    whole = workload_at(asked.workload, catalogue).all_classes(catalogue) if asked.workload else catalogue
    marks, lists = marks_of_run(report, asked)
    if catalogue:
        network.judge_catalogue(report, catalogue, lists)
    text = Picture(report, whole, marks, window(report, marks, asked.first, asked.last)).draw(asked.title)
    if not asked.into:
        return print(text, end="")
    with open(asked.into, "w", encoding="utf-8", newline="\n") as f:
        f.write(text)
    return None
