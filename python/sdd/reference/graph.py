"""The conflict graph of a catalogue, the blocks of its edges, and the protocol table.

A class i has two nodes, r:i for what it reads and w:i for what it writes; two edges have one block where a chain of
simple cycles links them. Definition: docs/FORMATS.md, "What `graph` prints" and "What `table` prints";
crates/sdd_graph/specs/Graph.antt, sdd_blocks/specs/Blocks.antt, sdd_protocol/specs/Protocols.antt, Conditions.antt.
"""
from collections import Counter
from typing import NamedTuple

from sdd.reference.breaking import is_broken

MOST_EDGES_TO_LIST = 14


class Edge(NamedTuple):
    kind: str               # vertical, horizontal, diagonal
    i: int                  # a class; of a diagonal the reader
    j: int = 0              # of a diagonal the writer
    fragment: str = ""

    @property
    def ends(self):
        """Its nodes, by numbers: 2i is r:i, and 2i + 1 is w:i."""
        first = 2 * self.i + (self.kind == "horizontal")
        return first, 2 * (self.j or self.i) + 1

    def words(self, cat):
        named = [cat.class_name(self.i)] + ([cat.class_name(self.j)] if self.j else [])
        return " ".join([self.kind] + named + ([self.fragment] if self.fragment else []))


class Entry(NamedTuple):
    edge: Edge
    block: int              # 0 where the edge lies on no simple cycle
    protocol: str           # of a diagonal


def conflict_graph(cat):
    numbers = range(1, len(cat.classes) + 1)
    writes = [set()] + [set(c.writes) for c in cat.classes]
    edges = [Edge("vertical", i) for i in numbers]
    edges += [Edge("horizontal", i, j) for i in numbers for j in numbers if i < j and writes[i] & writes[j]]
    edges += [Edge("diagonal", i, j, f) for i in numbers for j in numbers if i != j
              for f in cat.in_order(writes[j] & set(cat.reads[i - 1]))]
    return edges


# Blocks. Few edges: all simple cycles are listed, and edges that share one are joined. Many edges: two edges lie on
# a common simple cycle exactly where no node parts them, so each node is taken away in turn.

def blocks_of(edges):
    """The block number of each edge: from 1 by their first edges, and 0 where it lies on no cycle."""
    kinds = by_cycles(edges) if len(edges) <= MOST_EDGES_TO_LIST else by_parting(edges)
    shared, numbers = Counter(kinds), {}
    return [numbers.setdefault(kind, len(numbers) + 1) if shared[kind] > 1 else 0 for kind in kinds]


def by_cycles(edges):
    """For each edge a mark that the edges of its block share."""
    marks = list(range(len(edges)))
    for cycle in simple_cycles(edges):
        joined = {marks[k] for k in cycle}
        marks = [min(joined) if mark in joined else mark for mark in marks]
    return marks


def simple_cycles(edges):
    """The places of the edges of each simple cycle: it has two edges or more, and meets no node twice."""
    def walks(start, at, met, path):
        for k in range(path[0] + 1, len(edges)):
            if k in path or at not in edges[k].ends:
                continue
            to = sum(edges[k].ends) - at
            if to == start:
                yield path + [k]
            elif to not in met:
                yield from walks(start, to, met | {to}, path + [k])
    for k, edge in enumerate(edges):
        yield from walks(edge.ends[0], edge.ends[1], set(edge.ends), [k])


def by_parting(edges):
    """For each edge, in which part it lies once each node is taken away."""
    ends = [edge.ends for edge in edges]
    beside = {node: set() for pair in ends for node in pair}
    for a, b in ends:
        beside[a].add(b)
        beside[b].add(a)
    parts = [(node, parts_without(beside, node)) for node in beside]
    return [tuple(part[b if a == node else a] for node, part in parts) for a, b in ends]


def parts_without(beside, node):
    """For each other node the least node to which it is joined."""
    part = {}
    for start in sorted(beside):
        todo = [start] if start != node and start not in part else []
        while todo:
            at = todo.pop()
            if at != node and at not in part:
                part[at] = start
                todo += beside[at]
    return part


def protocol_table(cat):
    edges = conflict_graph(cat)
    blocks = blocks_of(edges)
    vertical = {e.i: block for e, block in zip(edges, blocks) if e.kind == "vertical"}
    return [Entry(e, block, protocol_of(block, vertical[e.i])) for e, block in zip(edges, blocks)]


def protocol_of(block, vertical):
    """The protocol of a diagonal in a block, where its reader's vertical edge is in this one."""
    if block == 0 or is_broken("all-p1"):
        return "P1"
    return "P3" if block == vertical and not is_broken("p2-for-p3") else "P2"


class Cond(NamedTuple):
    """A read condition: the class must have passed the time with its writes of the fragments."""
    cls: int
    time: int
    fragments: tuple


def diagonals_by_pair(table):
    """Reader and writer -> the protocol of their diagonals, which is one, and the fragments."""
    pairs = {}
    for e in table:
        if e.edge.kind == "diagonal":
            pairs.setdefault((e.edge.i, e.edge.j), (e.protocol, []))[1].append(e.edge.fragment)
    return pairs


def conditions(cat, pairs, cls, fragments, module, own, p2):
    """Those of an attempt of a class that reads the fragments, at a module: P3 asks up to its own time, P2 up to p2."""
    numbers = range(1, len(cat.classes) + 1)
    if cls == 0:
        return [Cond(j, own, tuple(f.name for f in cat.fragments)) for j in numbers]
    found = []
    for j in numbers:
        protocol, between = pairs.get((cls, j), ("P1", ()))
        asked = tuple(f for f in between if f in fragments and cat.read_at(cls, f) == module)
        if protocol != "P1" and asked:
            found.append(Cond(j, own if protocol == "P3" else p2, asked))
    return found


# What is printed.

def graph_text(cat):
    return "".join("%s block %s\n" % (e.edge.words(cat), e.block or "-") for e in protocol_table(cat))


def read_words(cat, entry):
    """Who reads which fragment where, who writes it, and the protocol."""
    reader, writer, fragment = entry.edge.i, entry.edge.j, entry.edge.fragment
    return "%s reads %s at D%d writer %s %s" % (
        cat.class_name(reader), fragment, cat.read_at(reader, fragment), cat.class_name(writer), entry.protocol)


def table_text(cat):
    return "".join("%s block %s\n" % (read_words(cat, e), e.block or "-")
                   for e in protocol_table(cat) if e.edge.kind == "diagonal")
