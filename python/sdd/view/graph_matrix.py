"""The conflict graph of many classes as a matrix (SVG): readers down, writers across.

    text = matrix_of(names, edges, protocols)

A cell tells the protocol of the reader's reads toward the writer, its colour their block; under the pointer
it tells the fragments. The diagonal, where a class would meet itself, is grey.
"""
from sdd.view import svg

CELL, LETTER, TOP, MOST_BLOCKS = 22, 6.4, 60, 24
NO_BLOCK = "#888888"
STYLE = """
text{font-family:'DejaVu Sans',Verdana,sans-serif;font-size:10px;fill:#222}
.h{font-size:12px;font-weight:bold}.e{text-anchor:end}.m{text-anchor:middle;font-size:9px;font-weight:bold}
.grid{fill:#fff;stroke:#ddd}.own{fill:#f0f0ec;stroke:#ddd}
"""


def colour_of(block):
    """As many colours as there are blocks: those that follow one another lie far apart."""
    return NO_BLOCK if block == "-" else "hsl(%d,%d%%,%d%%)" % ((int(block) * 137 + 70) % 360, 62, 72 if int(block) % 2 else 62)


def cells_of(edges, protocols):
    """Of each reader and writer the block and the fragments with their modules."""
    cells = {}
    for kind, names, block in edges:
        if kind == "diagonal":
            reader, writer, fragment = names
            module, protocol = protocols[reader, writer, fragment]
            cells.setdefault((reader, writer), (protocol, block, []))[2].append("%s at %s" % (fragment, module))
    return cells


def matrix_of(names, edges, protocols):
    cells, place = cells_of(edges, protocols), {name: k for k, name in enumerate(names)}
    long = max(map(len, names)) * LETTER
    left, top = long + 24, long + TOP
    size = CELL * len(names)
    shapes = [svg.label(12, 18, "Rows read, columns write", "h"),
              svg.shape("rect", "grid", x=left, y=top, width=size, height=size)]
    for name, k in place.items():
        shapes.append(svg.label(left - 6, top + CELL * (k + 0.5) + 3.5, name, "e"))
        x, y = svg.number(left + CELL * (k + 0.5) + 3.5), svg.number(top - 6)
        shapes.append(svg.label(float(x), float(y), name, transform="rotate(-90 %s %s)" % (x, y)))
        shapes.append(svg.shape("rect", "own", x=left + CELL * k, y=top + CELL * k, width=CELL, height=CELL))
        line = "M%s %sh%sM%s %sv%s" % tuple(map(svg.number, (left, top + CELL * k, size, left + CELL * k, top, size)))
        shapes.append(svg.shape("path", "grid", d=line))
    for (reader, writer), (protocol, block, reads) in cells.items():
        x, y = left + CELL * place[writer], top + CELL * place[reader]
        reported = "%s reads %s, which %s writes: %s, %s" % (
            reader, ", ".join(reads), writer, protocol, "no block" if block == "-" else "block " + block)
        shapes.append(svg.shape("rect", "", reported, x=x + 1, y=y + 1, width=CELL - 2, height=CELL - 2, fill=colour_of(block)))
        shapes.append(svg.label(x + CELL / 2, y + CELL / 2 + 3.5, protocol, "m", pointer_events="none"))
    width = max(left + size + 20, 480)
    y, more = legend(cells, 14, top + size + 22, width)
    return svg.whole(width, y, STYLE, shapes + more)


def legend(cells, x, y, width):
    """The blocks, with how many cells each has."""
    counts = {}
    for _, block, _ in cells.values():
        counts[block] = counts.get(block, 0) + 1
    shapes, left = [], x
    blocks = sorted(counts, key=lambda b: (b == "-", 0 if b == "-" else int(b)))
    for block in blocks[:MOST_BLOCKS]:
        text = "%s: %d" % ("no block" if block == "-" else "block " + block, counts[block])
        if x + 30 + svg.width_of(text) > width:
            x, y = left, y + 18
        shapes += [svg.shape("rect", "", x=x, y=y - 9, width=12, height=12, fill=colour_of(block)), svg.label(x + 17, y + 1, text)]
        x += 32 + svg.width_of(text)
    if len(blocks) > MOST_BLOCKS:
        shapes.append(svg.label(x, y + 1, "and %d blocks more" % (len(blocks) - MOST_BLOCKS)))
    return y + 16, shapes
