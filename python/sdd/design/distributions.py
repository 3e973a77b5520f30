"""The picture of sdd explore: for each class or kind how its times are distributed.

    text = draw_distributions(designs, "class", "rounds")

A row has two panels: how long reads waited that had to, and how long it took from the submission to the
commit. A bar's height is the part of them that fall between two times; times grow by the factor of two.
Two designs stand in one row, the first above the line, the second below it.
"""
import math

from sdd.view import svg

STYLE = """
text{font:11px sans-serif;fill:#222} .head{font-weight:bold} .small{font-size:9px;fill:#666}
.line{stroke:#999;stroke-width:1} .first{fill:#1f77b4} .second{fill:#d9730d} .middle{stroke:#222;stroke-width:2}
"""
LEFT, PANEL, GAP, HALF, TOP = 130, 300, 130, 34, 70
PARTS = 4                   # bars between a time and its double


def place_of(time):
    """In which bar a time falls."""
    return round(math.log2(max(time, 1 / 16)) * PARTS)


def count_bars(times):
    """The part of the times in each bar."""
    made = {}
    for x in times:
        made[place_of(x)] = made.get(place_of(x), 0) + 1 / len(times)
    return made


class Panel:
    """One kind of time, with a scale that all rows share."""

    def __init__(self, left, title, times):
        self.left, self.title = left, title
        places = [place_of(x) for x in times] or [0]
        self.low, self.high = min(places) - 1, max(places) + 2
        self.step = PANEL / (self.high - self.low)

    def x(self, place):
        return self.left + (place - self.low) * self.step

    def head(self, unit, bottom):
        shapes = [svg.label(self.left, TOP - 32, "%s, %s" % (self.title, unit), "head")]
        power = math.ceil(self.low / PARTS)
        stride = max(1, (self.high - self.low) // PARTS // 8)
        while power * PARTS <= self.high:
            x = self.x(power * PARTS + 0.5)
            shapes.append(svg.label(x, TOP - 14, "%g" % 2.0**power, "small", text_anchor="middle"))
            shapes.append(svg.shape("line", "line", x1=x, y1=TOP - 10, x2=x, y2=bottom, opacity="0.25"))
            power += stride
        return shapes

    def row(self, middle, times, down, note):
        """The bars of one design in a row, and its median as a stroke."""
        made, style = count_bars(times), "second" if down else "first"
        highest = max(made.values(), default=1)
        shapes = []
        for place, part in sorted(made.items()):
            height = (HALF - 8) * part / highest
            shapes.append(svg.shape("rect", style, "%g: %.1f%%" % (2.0 ** (place / PARTS), 100 * part), x=self.x(place),
                                    y=middle if down else middle - height, width=max(1, self.step - 1), height=height))
        if times:
            x = self.x(math.log2(max(sorted(times)[len(times) // 2], 1 / 16)) * PARTS + 0.5)
            shapes.append(svg.shape("line", "middle", x1=x, y1=middle, x2=x, y2=middle + (HALF - 8 if down else 8 - HALF)))
        shapes.append(svg.label(self.left + PANEL + 8, middle + (16 if down else -8), note, "small"))
        return shapes


def note_of(figures, times, waits):
    if figures is None:
        return ""
    middle = "median %.1f" % sorted(times)[len(times) // 2] if times else "none"
    return "%.2f an attempt, %s" % (figures.waits / figures.attempts, middle) if waits and figures.attempts else middle


def shorten(path):
    """The file with the folder in which it lies."""
    return "/".join(path.split("/")[-2:])


def draw_distributions(designs, by, unit):
    names = list(dict.fromkeys(x for design in designs for x in design.figures))
    panels = []
    for k, (title, field) in enumerate((("waits of reads", "waited"), ("from submission to commit", "latencies"))):
        times = [x for design in designs for figures in design.figures.values() for x in getattr(figures, field)]
        panels.append((Panel(LEFT + k * (PANEL + GAP), title, times), field))
    height = 2 * HALF if len(designs) == 2 else HALF
    bottom = TOP + height * len(names)
    shapes = []
    for k, design in enumerate(designs):
        shapes.append(svg.shape("rect", ("first", "second")[k], x=10 + 400 * k, y=8, width=10, height=10))
        shapes.append(svg.label(26 + 400 * k, 17, "%s, %d schedules" % (shorten(design.name), design.runs)))
    for panel, _ in panels:
        shapes += panel.head(unit, bottom)
    for k, name in enumerate(names):
        middle = TOP + height * k + HALF
        shapes.append(svg.label(10, middle - 4, name[:20]))
        shapes.append(svg.shape("line", "line", x1=10, y1=middle, x2=LEFT + 2 * PANEL + 2 * GAP - 20, y2=middle))
        for down, design in enumerate(designs):
            figures = design.figures.get(name)
            for panel, field in panels:
                times = getattr(figures, field) if figures else []
                shapes += panel.row(middle, times, bool(down), note_of(figures, times, field == "waited"))
    return svg.whole(LEFT + 2 * PANEL + 2 * GAP, bottom + 14, STYLE, shapes)
