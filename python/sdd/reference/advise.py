"""Why each read has its protocol: a cycle through the diagonal, and the nodes that lie apart.

P1 shows all nodes that are reached from the writer without the diagonal; P2 a cycle, and all that are reached without
the reader's node; P3 a cycle that ends with the reader's vertical edge. Of several cycles a shortest one is reported.
Definition: docs/FORMATS.md, "What `advise` prints"; crates/sdd_advise/specs/Advices.antt.
"""
from sdd.reference.graph import conflict_graph, protocol_table, read_words, Edge


def search(edges, start, goes):
    """The nodes that are reached along these edges, breadth first: each with the edge and the node it is come from."""
    came, order = {start: None}, [start]
    for node in order:
        for edge in edges:
            if node in edge.ends and goes(edge):
                to = sum(edge.ends) - node
                if to not in came:
                    came[to] = (edge, node)
                    order.append(to)
    return came


def way_to(came, node):
    """The edges that lead from the start of a search to the node."""
    way = []
    while came[node]:
        edge, node = came[node]
        way.append(edge)
    return way[::-1]


def advice_for(edges, entry):
    """The cycle and the nodes apart."""
    edge = entry.edge
    read, write = edge.ends
    if entry.protocol == "P1":
        return [], sorted(search(edges, write, lambda e: e != edge))
    if entry.protocol == "P2":
        back = search(edges, write, lambda e: e != edge)
        return [edge] + way_to(back, read), sorted(search(edges, write, lambda e: read not in e.ends))
    own = Edge("vertical", edge.i)
    back = search(edges, write, lambda e: read not in e.ends)
    return [edge] + way_to(back, own.ends[1]) + [own], None


def advice_text(cat):
    edges = conflict_graph(cat)
    lines = []
    for entry in protocol_table(cat):
        if entry.edge.kind == "diagonal":
            cycle, apart = advice_for(edges, entry)
            lines.append(read_words(cat, entry))
            lines += ["by " + edge.words(cat) for edge in cycle]
            if apart is not None:
                lines.append(" ".join(["apart"] + ["%s:%s" % ("rw"[n % 2], cat.class_name(n // 2)) for n in apart]))
    return "".join(line + "\n" for line in lines)
