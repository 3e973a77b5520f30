"""Cycles of a dependency graph, shortest first, and what such an anomaly is called."""


def components(edges):
    """The strongly connected components of more than one node (Tarjan)."""
    index, low, stack, on = {}, {}, [], set()
    for root in range(len(edges)):
        if root in index:
            continue
        index[root] = low[root] = len(index)
        stack.append(root)
        on.add(root)
        walk = [(root, iter(edges[root]))]
        while walk:
            a, rest = walk[-1]
            b = next(rest, None)
            if b is None:
                walk.pop()
                if walk:
                    low[walk[-1][0]] = min(low[walk[-1][0]], low[a])
                if low[a] == index[a]:
                    part = taken(stack, on, a)
                    if len(part) > 1:
                        yield part
            elif b not in index:
                index[b] = low[b] = len(index)
                stack.append(b)
                on.add(b)
                walk.append((b, iter(edges[b])))
            elif b in on:
                low[a] = min(low[a], index[b])


def taken(stack, on, root):
    """The component that ends with its root on the stack."""
    part = set()
    while root not in part:
        part.add(stack.pop())
    on -= part
    return part


def shortest_cycle(edges, part, start):
    """A shortest cycle of a component through one of its nodes."""
    came, front = {start: None}, [start]
    while front:
        longer = []
        for a, b in ((a, b) for a in front for b in sorted(edges[a])):
            if b == start:
                return path_to(came, a)
            if b in part and b not in came:
                came[b] = a
                longer.append(b)
        front = longer
    return None


def path_to(came, a):
    path = [a]
    while came[path[-1]] is not None:
        path.append(came[path[-1]])
    return path[::-1]


def cycles(edges, most=60):
    """Shortest cycles through the nodes of each component, of so many nodes each; shortest first."""
    found = {}
    for part in components(edges):
        for start in sorted(part)[:most]:
            path = shortest_cycle(edges, part, start)
            if path is not None:
                found.setdefault(frozenset(path), path)
    return sorted(found.values(), key=lambda c: (len(c), c))


def edges_of(graph, cycle):
    return [graph.edges[a][b] for a, b in zip(cycle, cycle[1:] + cycle[:1])]


def kind_of(graph, cycle):
    """What an anomaly with such a cycle is called."""
    edges = edges_of(graph, cycle)
    kinds, items = sorted(k for k, _ in edges), {item for _, item in edges}
    if "so" in kinds:
        return "a session doesn't see what it did" if len(cycle) == 2 else "a session goes back"
    if "rw" not in kinds:
        return "write cycle (G0)" if "wr" not in kinds else "circular information flow (G1c)"
    if kinds == ["rw", "ww"] and len(items) == 1:
        return "lost update"
    if kinds.count("rw") == 1:
        return "read skew (G-single)"
    if kinds == ["rw", "rw"]:
        return "write skew (G2)" if len(items) == 2 else "crossed reads and writes of one row (G2)"
    if kinds == ["rw", "rw", "wr"] and any(not graph.history.done[k].writes for k in cycle):
        return "read-only anomaly (G2)"
    return "cycle of %d transactions (G2)" % len(cycle)


def shown(graph, cycle):
    text = graph.name(cycle[0])
    for (kind, item), b in zip(edges_of(graph, cycle), cycle[1:] + cycle[:1]):
        text += " -%s %s/%s-> %s" % (kind, *item, graph.name(b))
    return text
