"""Draws the conflict graph of a catalogue, with the protocols of its reads.

    sdd graph-picture CATALOGUE [--program COMMAND] [--into FILE]

What is drawn is what `sdd1 graph` and `sdd1 table` print: a column for each class, with what it reads
above and what it writes below; vertical edges between the two, horizontal ones between writers, and
diagonals from a reader to a writer, with the fragment and the protocol. The edges of one block have one
colour; those of none are grey. Beyond a dozen classes it is a matrix of readers by writers: each cell has
the protocol, and the colour of its block.

COMMAND is a built `sdd1`; without it the program is run unproved, by `rt try`, in some two minutes.
FILE gets the picture as SVG where it ends with .svg, and else as text for Graphviz; without FILE that text
is printed. The SVG of up to a dozen classes needs `dot` of Graphviz.
"""
import re
import shutil
import subprocess

from sdd.command import parser
from sdd.model.files import BadInput
from sdd.model.reading import catalogue_at
from sdd.programs import add_program, run_program
from sdd.view.graph_matrix import matrix_of
from sdd.view import svg

COLOURS = ["#d9730d", "#1f77b4", "#2a9134", "#8e44ad", "#c2185b", "#008b8b", "#b8860b", "#3949ab"]
NO_BLOCK = "#888888"
MOST_DRAWN = 12             # classes; a matrix shows more
COLUMN, HEIGHT = 190, 190   # from class to class, and from what is read to what is written
NAME = r"([A-Za-z][A-Za-z0-9_]*)"
EDGES = {
    "vertical": re.compile("vertical %s block (\\d+|-)" % NAME),
    "horizontal": re.compile("horizontal %s %s block (\\d+|-)" % (NAME, NAME)),
    "diagonal": re.compile("diagonal %s %s %s block (\\d+|-)" % (NAME, NAME, NAME)),
}
READ = re.compile("%s reads %s at (D\\d+) writer %s (P[123]) block (\\d+|-)" % (NAME, NAME, NAME))


def edges_of(text):
    """The lines of `graph`: the kind of each edge, its names and its block."""
    for line in text.splitlines():
        kind = line.split(" ")[0]
        found = kind in EDGES and EDGES[kind].fullmatch(line)
        if not found:
            raise BadInput("`graph` printed no edge: %s" % line)
        yield kind, found.groups()[:-1], found.groups()[-1]


def reads_of(text):
    """The lines of `table`: reader, fragment, module, writer, protocol and block."""
    for line in text.splitlines():
        found = READ.fullmatch(line)
        if not found:
            raise BadInput("`table` printed no read: %s" % line)
        yield found.groups()


def protocols_of(text):
    """The lines of `table`: of each reader, fragment and writer the module and the protocol."""
    return {(reader, writer, fragment): (module, protocol) for reader, fragment, module, writer, protocol, _ in reads_of(text)}


class Graphviz:
    """The graph as text for Graphviz, each thing at a place that is fixed here."""

    def __init__(self, catalogue, edges, protocols):
        self.places = {x.name: COLUMN * k for k, x in enumerate(catalogue.classes)}
        self.lines = ['graph conflicts {', '  graph [layout="neato", inputscale="72", splines="line"];',
                      '  node [shape="box", style="rounded", fontname="DejaVu Sans", fontsize="10", height="0.3", margin="0.08,0.04"];',
                      '  edge [penwidth="1.6"];']
        for x in catalogue.classes:
            self.add_node("r " + x.name, "%s reads" % x.name, dict(x.reads), HEIGHT)
            self.add_node("w " + x.name, "%s writes" % x.name, x.writes, 0)
        self.labels = []        # rectangles that are taken: the middle, half of width and height
        joined = {}             # reader, writer -> block, fragments: their diagonals lie in one block
        for kind, names, block in edges:
            if kind == "vertical":
                self.add_edge('"r %s" -- "w %s"' % (names * 2), block)
            elif kind == "horizontal":
                self.add_horizontal(names, block)
            else:
                joined.setdefault(names[:2], (block, []))[1].append(names[2])
        for (reader, writer), (block, fragments) in joined.items():
            self.add_diagonal(reader, writer, block, fragments, protocols)

    def add_node(self, name, text, fragments, y):
        shown = ", ".join(fragments) or "nothing"
        shown = shown if len(shown) <= 24 else "%d fragments" % len(fragments)
        self.lines.append('  "%s" [label="%s\\n%s", pos="%d,%d!"];' % (name, text, shown, self.places[name[2:]], y))

    def add_edge(self, ends, block, lines=1):
        colour = colour_of(block)
        self.lines.append('  %s [color="%s"];' % (ends, ":white:".join([colour] * lines)))

    def add_horizontal(self, names, block):
        """Below the writers, the further the more of them it passes."""
        a, b = (self.places[x] for x in names)
        bend = "h %s %s" % names
        self.lines.append('  "%s" [shape="point", width="0.01", color="%s", pos="%d,%d!"];' % (
            bend, colour_of(block), (a + b) / 2, -20 - 16 * abs(b - a) / COLUMN))
        self.add_edge('"w %s":s -- "%s"' % (names[0], bend), block)
        self.add_edge('"%s" -- "w %s":s' % (bend, names[1]), block)

    def add_diagonal(self, reader, writer, block, fragments, protocols):
        """A line for each fragment; the label stands on them where no other one stands."""
        self.add_edge('"r %s":s -- "w %s":n' % (reader, writer), block, len(fragments))
        modules = {}
        for x in fragments:
            modules.setdefault(protocols[reader, writer, x][0], []).append(x)
        shown = "; ".join("%s at %s" % (", ".join(mine), module) for module, mine in modules.items())
        protocol = protocols[reader, writer, fragments[0]][1]
        text = "%s %s" % (protocol, shown if len(shown) <= 36 else "%d fragments" % len(fragments))
        a, b, half = self.places[reader], self.places[writer], svg.width_of(text) * 0.45 + 3
        for step in range(24, 80, 4):
            x, y = a + (b - a) * step / 100, HEIGHT - 14 - (HEIGHT - 28) * step / 100
            if all(abs(x - u) > half + w or abs(y - v) > 14 for u, v, w in self.labels):
                break
        self.labels.append((x, y, half))
        self.lines.append('  "l %s %s" [shape="plain", style="filled", fillcolor="white", fontsize="9", fontcolor="%s", label="%s", pos="%d,%d!"];' % (
            reader, writer, colour_of(block), text, x, y))

    def text(self):
        return "\n".join(self.lines + ["}"]) + "\n"


def colour_of(block):
    return NO_BLOCK if block == "-" else COLOURS[(int(block) - 1) % len(COLOURS)]


def svg_of(text):
    if shutil.which("dot") is None:
        raise BadInput("`dot` of Graphviz isn't installed; a FILE that doesn't end with .svg gets the text for it")
    done = subprocess.run(["dot", "-Tsvg"], input=text.encode(), stdout=subprocess.PIPE, stderr=subprocess.PIPE)
    if done.returncode:
        raise BadInput("dot: " + done.stderr.decode(errors="replace").strip().split("\n")[0])
    return re.sub(r"<\?xml.*?\?>\s*|<!DOCTYPE.*?>\s*|<!--.*?-->\s*", "", done.stdout.decode(), flags=re.S)


def main():
    asked = parser(__doc__)
    asked.add_argument("catalogue", metavar="CATALOGUE")
    add_program(asked)
    asked.add_argument("--into", metavar="FILE", help="the picture's file")
    asked = asked.parse_args()
    catalogue = catalogue_at(asked.catalogue)
    edges = list(edges_of(run_program(asked.program, ["graph", asked.catalogue])))
    protocols = protocols_of(run_program(asked.program, ["table", asked.catalogue]))
    ends = {x for _, names, _ in edges for x in names[:2]}
    names = [x.name for x in catalogue.classes]
    if ends - set(names) or len(catalogue.classes) != sum(kind == "vertical" for kind, _, _ in edges):
        raise BadInput("`graph` printed the graph of another catalogue")
    is_picture = bool(asked.into) and asked.into.endswith(".svg")
    if is_picture and len(catalogue.classes) > MOST_DRAWN:
        text = matrix_of(names, edges, protocols)
    else:
        text = Graphviz(catalogue, edges, protocols).text()
        text = svg_of(text) if is_picture else text
    if not asked.into:
        return print(text, end="")
    with open(asked.into, "w", encoding="utf-8", newline="\n") as f:
        f.write(text)
    return None
