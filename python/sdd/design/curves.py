"""The picture of timed runs: for each class or kind how its times are distributed, two designs over each other.

    text = draw_curves(explored)        # a list of one or two Explored

A curve tells for each time on its scale, which grows by factors, how many of 100 took at most so long; dots mark p50, p95, p99.
"""
import math

from sdd.design.latencies import ALL, PARTS, percentile
from sdd.design.latency_tables import FIELDS, short, shown
from sdd.view import svg

STYLE = """
text{font:11px sans-serif;fill:#222} .head{font-weight:bold} .small{font-size:9px;fill:#666} .frame{fill:none;stroke:#bbb}
.grid{stroke:#ddd;stroke-width:1} .first{fill:none;stroke:#1f77b4;stroke-width:1.6} .second{fill:none;stroke:#d9730d;stroke-width:1.6}
.dot1,text.told1{fill:#1f77b4} .dot2,text.told2{fill:#d9730d} text.told1,text.told2{font-size:9px}
"""
LEFT, PANEL, GAP, ROW, HIGH, TOP = 110, 250, 22, 104, 66, 62
POINTS = 120


class Scale:
    """Milliseconds on a line that grows by factors of ten."""

    def __init__(self, times):
        times = [max(x, 0.1) for x in times] or [1.0]
        self.low, self.high = math.floor(math.log10(min(times)) * 2) / 2, math.ceil(math.log10(max(times)) * 2 + 0.01) / 2

    def x(self, ms):
        return PANEL * (math.log10(max(ms, 10 ** self.low)) - self.low) / max(0.5, self.high - self.low)

    def marks(self):
        return [10.0 ** k for k in range(math.ceil(self.low), math.floor(self.high) + 1)]


def curve(times, scale, left, bottom, style):
    """How many of 100 took at most so long."""
    ordered = sorted(times)
    steps = sorted({min(len(ordered) - 1, k * len(ordered) // POINTS) for k in range(POINTS + 1)})
    points = [(left, bottom)] + [(left + scale.x(ordered[k]), bottom - HIGH * (k + 1) / len(ordered)) for k in steps]
    points.append((left + PANEL, bottom - HIGH))
    path = "M%.1f %.1f " % points[0] + " ".join("H%.1f V%.1f" % p for p in points[1:])
    return svg.shape("path", style, d=path)


def panel(groups, field, scale, left, bottom):
    shapes = [svg.shape("rect", "frame", x=left, y=bottom - HIGH, width=PANEL, height=HIGH)]
    for ms in scale.marks():
        x = left + scale.x(ms)
        shapes += [svg.shape("line", "grid", x1=x, y1=bottom - HIGH, x2=x, y2=bottom), svg.label(x, bottom + 10, "%g" % ms, "small", text_anchor="middle")]
    for k, group in enumerate(groups):
        times = getattr(group, field) if group else []
        told = " ".join(shown(percentile(times, p)) for p in PARTS) if times else "none"
        shapes.append(svg.label(left + k * PANEL, bottom - HIGH - 4, told, "told%d" % (k + 1), text_anchor=("start", "end")[k]))
        if not times:
            continue
        shapes.append(curve(times, scale, left, bottom, ("first", "second")[k]))
        for p in PARTS:
            ms = percentile(times, p)
            shapes.append(svg.shape("circle", "dot%d" % (k + 1), "p%d: %s ms" % (p, shown(ms)), cx=left + scale.x(ms), cy=bottom - HIGH * p / 100, r=2.5))
    return shapes


def draw_curves(designs):
    both = [x.latencies.ordered() for x in designs]
    names = list(dict.fromkeys(x for groups in both for x in groups if x != ALL)) + [ALL]
    shapes, width = [], LEFT + len(FIELDS) * (PANEL + GAP)
    for k, design in enumerate(designs):
        shapes.append(svg.shape("rect", "dot%d" % (k + 1), x=10 + 260 * k, y=8, width=10, height=10))
        shapes.append(svg.label(26 + 260 * k, 17, "%s, %d runs" % (short(design.name), design.latencies.runs)))
    for n, (title, field) in enumerate(FIELDS):
        left = LEFT + n * (PANEL + GAP)
        scale = Scale([x for groups in both for group in groups.values() for x in getattr(group, field)])
        shapes.append(svg.label(left, TOP - 24, "%s, ms" % title, "head"))
        for row, name in enumerate(names):
            shapes += panel([x.get(name) for x in both], field, scale, left, TOP + ROW * row + HIGH)
    shapes.append(svg.label(width - GAP, 17, "how many of 100 took at most so long; dots and numbers: p50, p95, p99", "small", text_anchor="end"))
    for row, name in enumerate(names):
        shapes.append(svg.label(10, TOP + ROW * row + HIGH / 2, name[:18], "head"))
    return svg.whole(width, TOP + ROW * len(names), STYLE, shapes)
