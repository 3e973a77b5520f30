"""Orders of a history's transactions in which one plain database might give all replies: cheap proposals first, then a search."""
import heapq

from sdd.judge.recorded import NEVER, apply, put
from sdd.model.statements import Query

NEAR, WINDOW = 200, 24
LAST, OTHER_VERSIONS = "by search", "by search, rows written in another order"
FEW_STEPS = 3000


class GaveUp(Exception):
    """Nothing was found in so many steps, and not all was tried."""


def by_end(history):
    return list(range(history.sure))        # they stand so


def by_begin(history):
    return sorted(range(history.sure), key=lambda k: (history.done[k].begin, history.done[k].end))


def along(graph, strict=False):
    """A topological order, early commits first; with `strict` what was over before another began stands before it. None on a cycle."""
    done, before = graph.history.done[:graph.history.sure], [0] * len(graph.edges)
    for out in graph.edges:
        for b in out:
            before[b] += 1
    ends = sorted(range(len(done)), key=lambda k: done[k].until)
    order, placed, held, front = [], [False] * len(done), [], 0
    ready = [(done[k].end, k) for k in range(len(done)) if before[k] == 0]
    heapq.heapify(ready)
    while ready or held:
        while front < len(ends) and placed[ends[front]]:
            front += 1
        limit = done[ends[front]].until if strict and front < len(ends) else NEVER
        back = [x for x in held if done[x[1]].begin <= limit]
        held = [x for x in held if done[x[1]].begin > limit]
        for x in back:
            heapq.heappush(ready, x)
        if not ready:
            return None
        end, k = heapq.heappop(ready)
        if done[k].begin > limit:
            held.append((end, k))
            continue
        order.append(k)
        placed[k] = True
        for b in graph.edges[k]:
            before[b] -= 1
            if before[b] == 0:
                heapq.heappush(ready, (done[b].end, b))
    return order if len(order) == len(done) else None


def only_reads(history, k):
    return all(isinstance(s, Query) for s in history.done[k].txn.statements)


def with_readers_placed(history, order):
    """The order with each transaction that only reads moved to a place at which its reply is explained, a strict one where there is one;
    those that change stay as they are."""
    readers = {k for k in order if only_reads(history, k)}
    writers = [k for k in order if k not in readers]
    wanted, passed = {}, 0                      # how many that change stand before a reader
    for k in order:
        if k in readers:
            wanted[k] = passed
        else:
            passed += 1
    places = places_explained(history, wanted, writers)
    behind = {}
    for k in readers:
        behind.setdefault(best_place(history, k, writers, places[k], wanted[k]), []).append(k)
    made = []
    for at in range(len(writers) + 1):
        made += sorted(behind.get(at, []), key=lambda k: history.done[k].end) + writers[at:at + 1]
    return made


def places_explained(history, wanted, writers):
    """For each reader behind how many of the writers its reply is explained, not far from where it stands."""
    tables, places = history.first_tables(), {k: [] for k in wanted}
    for at in range(len(writers) + 1):
        for k, near in wanted.items():
            if abs(near - at) <= NEAR and history.explain(k, tables) is not None:
                places[k].append(at)
        if at < len(writers):
            apply(tables, history.effect(writers[at], tables)[1])
    return places


def best_place(history, k, writers, places, wanted):
    begin, until = history.done[k].begin, history.done[k].until
    low = max((n + 1 for n, w in enumerate(writers) if history.done[w].until < begin), default=0)
    high = min((n for n, w in enumerate(writers) if history.done[w].begin > until), default=len(writers))
    return min(places, key=lambda at: (not low <= at <= high, abs(at - wanted)), default=wanted)


class Search:
    """Tries to place the transactions one after the other, each where it gives its reply.

    The ones that may come next stand behind all of `edges`, and with `strict` they began before each that is left was over. One that only
    reads is placed as soon as it gives its reply, and nothing else is tried there: an order that has it later still holds when it is moved
    forward, since it changes nothing. A set of transactions placed with the rows that they leave isn't tried again where it led nowhere.
    Of those of unknown outcome some may be left out.
    """

    def __init__(self, history, edges, strict, most):
        self.history, self.strict, self.most, self.steps = history, strict, most, 0
        self.before = [0] * len(history.done)
        for a, out in enumerate(edges):
            for b in out:
                self.before[b] |= 1 << a
        self.needed = (1 << history.sure) - 1
        self.ends = sorted(range(len(history.done)), key=lambda k: history.done[k].end)
        self.untils = sorted(range(history.sure), key=lambda k: history.done[k].until)
        self.tables, self.order, self.placed, self.code, self.dead = history.first_tables(), [], 0, 0, set()
        self.readers = {k for k in range(history.sure) if only_reads(history, k)}
        self.narrowed = False               # whether some that might come next weren't tried

    def candidates(self):
        done, left = self.history.done, [k for k in self.ends if not self.placed >> k & 1]
        limit = NEVER
        if self.strict:
            limit = next((done[k].until for k in self.untils if not self.placed >> k & 1), NEVER)
        may = [k for k in left if self.before[k] & ~self.placed == 0 and done[k].begin <= limit]
        at_once = next((k for k in may if k in self.readers and self.is_explained(k)), None)
        if at_once is not None:
            return iter([at_once])
        if not self.strict and len(may) > WINDOW:
            self.narrowed = True
            may = may[:WINDOW]
        return iter(may)

    def is_explained(self, k):
        self.steps += 1
        return self.history.explain(k, self.tables) is not None

    def mark(self, changes):
        made = 0
        for (r, key), row in changes.items():
            made ^= hash((r, key, self.tables[r].get(key))) ^ hash((r, key, row))
        return made

    def place_next(self, candidates):
        """Places the first candidate that is explained and not known to lead nowhere: how to take it back. None where there is none."""
        for k in candidates:
            self.steps += 1
            if self.steps > self.most:
                raise GaveUp(self.most)
            changes = self.history.explain(k, self.tables)
            mark = None if changes is None else self.mark(changes)
            if changes is None or (self.placed | 1 << k, self.code ^ mark) in self.dead:
                continue
            undo = apply(self.tables, changes)
            self.placed |= 1 << k
            self.code ^= mark
            self.order.append(k)
            return undo, 1 << k, mark
        return None

    def take_back(self, step):
        self.dead.add((self.placed, self.code))
        if step is None:
            return
        undo, bit, mark = step
        for r, key, row in reversed(undo):
            put(self.tables, r, key, row)
        self.placed &= ~bit
        self.code ^= mark
        self.order.pop()

    def run(self):
        """An order that explains all replies and the rows left; None where there is none."""
        stack = [(self.candidates(), None)]
        while stack:
            if self.placed & self.needed == self.needed and self.history.are_left(self.tables):
                return self.order
            step = self.place_next(stack[-1][0])
            if step is None:
                self.take_back(stack.pop()[1])
            else:
                stack.append((self.candidates(), step))
        if self.narrowed:
            raise GaveUp(self.steps)
        return None


def if_strict(history, order):
    return order if order is not None and history.is_strict(order) else None


def proposals(history, graph, sure, most):
    """An order's name, what it needs, and a function that proposes it or None. It needs a `graph` without cycle, or that `some` order may agree
    with the dependencies, or that `none` does, or nothing. `sure` is the graph that doesn't rest on times."""
    firm = graph if graph.ordered and along(graph) is not None else sure
    edges = firm.edges if firm.ordered and along(firm) is not None else [{} for _ in sure.edges]
    all_edges = sure.edges if sure.ordered and along(sure) is not None else edges

    def base(strict):
        return (along(graph, True) or along(sure, True) if strict else None) or along(graph) or along(sure) or by_end(history)
    yield "by commit", None, lambda: by_end(history)
    yield "by begin", None, lambda: by_begin(history) if history.timed else None
    yield "along the dependencies, strictly", "graph", lambda: along(graph, strict=True)
    yield "along the dependencies, readers moved, strictly", "some", lambda: if_strict(history, with_readers_placed(history, base(True)))
    yield "by search, strictly", "some", lambda: Search(history, edges, True, most).run()
    yield "along the dependencies and sessions", "graph", lambda: along(graph.with_sessions())
    yield "along the dependencies", "graph", lambda: along(graph)
    yield "along the dependencies, readers moved", "some", lambda: with_readers_placed(history, base(False))
    yield LAST, "some", lambda: Search(history, all_edges, False, most).run()
    for words, strictly in ((", strictly", True), ("", False)):
        yield OTHER_VERSIONS + words, "none", lambda strictly=strictly: Search(history, sure.forced, strictly, min(most, FEW_STEPS)).run()
