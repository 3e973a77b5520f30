"""What a schedule does besides submitting and delivering: what it loses and repeats, which modules are down, and
which class list it puts in force.

    marks = marks_of(first, lines)      # of the text of a run's events (docs/INSIDE.md)

A report has no record of it; sdd picture draws it where it is given the workload.
"""
from typing import NamedTuple

from sdd.model.files import BadInput
from sdd.view.lanes import NETWORK, Item
from sdd.view.replay import Reader
from sdd.view import svg

LOST = "#c62828"
DOWN = {"fill": LOST, "fill_opacity": ".12", "stroke": LOST, "stroke_width": ".8", "stroke_dasharray": "2 2"}

LIST = {"stroke": "#3949ab", "stroke_width": "1.4", "stroke_dasharray": "5 3"}


class Mark(NamedTuple):
    event: int
    kind: str               # lose, repeat, down, up, redeclare
    site: str               # the module in whose lane it stands, or U; of a redeclare nothing
    line: str               # as a workload spells it
    text: str


def lane_of(a, b):
    """A link has one data module, or joins U and a transaction module."""
    return next((x for x in (a, b) if x[0] == "D"), "U")


def marks_of(first, lines):
    reader, marks, lists = Reader(first), [], 0
    for line in lines:
        reader.apply(line)
        words = line["do"].split(" ")
        if words == ["redeclare"]:
            lists += 1
            marks.append(Mark(line["event"], "redeclare", "", "%d redeclare" % line["event"], "list %d" % lists))
        if line.get("nothing") or words[0] not in ("lose", "repeat", "down", "up"):
            continue
        text = words[0]
        if words[0] in ("lose", "repeat"):
            packet = line["took"] if words[0] == "lose" else reader.flight[words[1], words[2]][-1]
            text = "%s %s to %s" % ({"lose": "lost", "repeat": "repeated"}[words[0]], reader.label(tuple(words[1:3]), packet), words[2])
        site = lane_of(*words[1:3]) if len(words) > 3 else words[1]
        marks.append(Mark(line["event"], words[0], site, "%d %s" % (line["event"], line["do"]), text))
    return marks


def judge_run(report, lines):
    """Refuses a workload that isn't that of the report."""
    reported = [(x.event, x.txn) for x in report.records if x.kind == "submit"]
    done = [(x["event"], x["do"].split(" ")[1]) for x in lines if x["do"].startswith("submit ")]
    if reported != done:
        raise BadInput("the workload isn't that of the report: it submits other transactions, or at other events")


def judge_catalogue(report, catalogue, lists):
    """Refuses a catalogue that isn't that of the run; LISTS are the classes of the workload's lists."""
    copies = {("D%d" % dm, x.name) for x in catalogue.fragments for dm in x.copies}
    if copies != set(report.copies):
        site, name = min(copies ^ set(report.copies))
        raise BadInput("the catalogue isn't that of the run: %s has a copy of %s at %s, the other one has none" % (
            "it" if (site, name) in copies else "the report", name, site))
    unknown = {x.cls for x in report.records if x.cls} - {"-"} - {x.name for x in catalogue.classes} - set(lists)
    if unknown:
        raise BadInput("the catalogue isn't that of the run: it has no class %s; one of a list is known by the WORKLOAD" % min(unknown))


# How marks are drawn.

def lanes_of(picture, site):
    """The lanes of a site: a data module has its own, U and a transaction module have those of the classes at home there."""
    return [lane for (kind, name), lane in picture.lanes.items() if (name if kind == "module" else lane.site) == site]


def add_marks(picture, marks):
    """Puts the marks into the lanes of a picture."""
    downs = {}
    for mark in marks:
        if mark.kind == "down":
            downs[mark.site] = mark
        elif mark.kind == "up":
            add_downs(picture, downs.pop(mark.site), mark)
        elif picture.columns.has(mark.event):
            picture.kinds |= {"redeclare"} if mark.kind == "redeclare" else set()
            for lane in lanes_of(picture, mark.site):
                add_packet(picture, lane, mark)
    for mark in downs.values():
        add_downs(picture, mark, None)


def list_lines(picture, top, bottom):
    """A line through all lanes where a class list is put in force."""
    shapes = []
    for mark in picture.marks:
        if mark.kind == "redeclare" and picture.columns.has(mark.event):
            x = picture.columns.x(mark.event)
            shapes += [svg.shape("path", "", mark.line, d="M%s %sV%s" % tuple(map(svg.number, (x, top, bottom))), **LIST),
                       svg.label(x + 3, bottom - 3, mark.text, "s")]
    return shapes


def add_packet(picture, lane, mark):
    x = picture.columns.x(mark.event)
    picture.kinds.add(mark.kind)

    def draw(y):
        return sample(mark.kind, x, y, mark.line) + [svg.label(x + 8, y + 3.5, mark.text)]
    lane.add(NETWORK, Item(x - 6, x + 11 + svg.width_of(mark.text), draw))


def add_downs(picture, begin, end):
    """A module is down from one mark to the next; where there is none, to the end."""
    if picture.is_open(begin, end):
        for lane in lanes_of(picture, begin.site):
            add_down(picture, lane, begin, end)


def add_down(picture, lane, begin, end):
    left, over = picture.columns.x(begin.event), end is not None and end.event <= picture.last
    right = max(left + 8, picture.columns.x(end.event) if over else picture.columns.right)
    reported = begin.line + ("\n" + end.line if end else "")
    picture.kinds.add("down")

    def draw(y):
        return [svg.shape("rect", "", reported, x=left, y=y - 6, width=right - left, height=12, **DOWN), svg.label(left + 4, y + 3.5, "down")]
    lane.add(NETWORK, Item(left - 1, max(right, left + 34) + 3, draw))


def sample(kind, x, y, reported=None):
    if kind == "redeclare":
        return [svg.shape("path", "", reported, d="M%s %sv12" % (svg.number(x), svg.number(y - 6)), **LIST)]
    if kind == "down":
        return [svg.shape("rect", "", reported, x=x - 9, y=y - 5, width=18, height=10, **DOWN)]
    if kind == "lose":
        path = "M%s %sl7 7m0 -7l-7 7" % (svg.number(x - 3.5), svg.number(y - 3.5))
        return [svg.shape("path", "", reported, d=path, stroke=LOST, stroke_width="2"),
                svg.shape("circle", "", cx=x, cy=y, r=5.5, fill="none", stroke=LOST)]
    return [svg.shape("circle", "", reported, cx=x + dx, cy=y, r=3.2, fill="none", stroke="#444", stroke_width="1.4") for dx in (-2, 2.5)]
