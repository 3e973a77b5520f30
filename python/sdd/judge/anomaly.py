"""The smallest anomaly of a history: a few transactions, from the rows that they found, of which no order gives their replies."""
import itertools
import os
import shutil

from sdd.judge.cycles import kind_of, shown
from sdd.judge.effect import answer
from sdd.judge.judged_files import plain, write_files
from sdd.judge.recorded import apply
from sdd.model.statements import Query

MOST_TRANSACTIONS, MOST_WHOLE, MOST_TRIES = 6, 5, 40


class Anomaly:
    """`members` are places, `first` the rows from which they begin, `left` those that they leave; `words` say what is wrong."""

    def __init__(self, history, members, first, left, words):
        self.history, self.members, self.first, self.left, self.words = history, members, first, left, words

    def difference(self, order):
        """What the transactions say otherwise in this order, or None where it gives their replies, and the rows that they left."""
        return self.history.difference(order, self.first, self.left)

    def is_one(self):
        return all(self.difference(order) is not None for order in itertools.permutations(self.members))

    def judge(self, judge, folder):
        """For each order its names, what `sdd1 verify` says, and why, in words; the files of each order are kept."""
        shutil.rmtree(folder, ignore_errors=True)
        used = {r for k in self.members for s in self.history.done[k].txn.statements for r in (s.relations if isinstance(s, Query) else [s.relation])}
        tables = {name: x for name, x in self.history.tables.items() if name in used}
        for number, order in enumerate(itertools.permutations(self.members), 1):
            paths = write_files(os.path.join(folder, "order%d" % number), tables, {name: self.first[name] for name in tables},
                                plain(self.history, order), {name: rows for name, rows in self.left.items() if name in tables})
            yield [self.history.done[k].name for k in order], judge.verify(paths), self.difference(order)


def smallest_anomaly(graph, cycles):
    """The anomaly of fewest transactions that the cycles and faults of a graph have; None where none can be cut out."""
    history, best = graph.history, None
    for members, words in itertools.islice(seeds(graph, cycles), MOST_TRIES):
        found = cut_out(graph, members, words)
        if found is not None and (best is None or len(found.members) < len(best.members)) and found.is_one():
            best = found
            if len(best.members) <= 2:
                break
    if best is None and len(history.done) == history.sure <= MOST_WHOLE:
        best = whole(history)
    return best


def seeds(graph, cycles):
    for kind, place, words in graph.faults:
        yield [place], "%s: %s" % (kind, words)
    for cycle in cycles:
        yield cycle, "%s: %s" % (kind_of(graph, cycle), shown(graph, cycle))


def whole(history):
    """All transactions of a short history, where no order of them explains it."""
    made = Anomaly(history, list(range(history.sure)), history.rows, history.left, "no order of all %d transactions" % history.sure)
    return made if made.is_one() else None


def cut_out(graph, members, words):
    """The transactions, with those whose versions they met where the first rows can't stand for them; None where these are too many.

    If an order explains the history, then it explains these, from these rows: each of them meets the version of a row that it met there, or one
    that is alike to its conditions. So if no order of them gives their replies, none of the history does, as far as the versions' order is known.
    """
    history, members = graph.history, set(members)
    while len(members) <= MOST_TRANSACTIONS and not members & graph.vague:
        base, missing = base_of(graph, members)
        if not missing:
            if any(may_be_joined(graph, k, base, members) for k in members):
                return None
            places = sorted(members, key=lambda k: (history.done[k].end, k))
            tables = {name: {} for name in history.tables}
            apply(tables, {item: graph.chains[item][n].row for item, n in base.items()})
            return Anomaly(history, places, tables, rows_left(graph, members, tables), words)
        members |= missing
    return None


def base_of(graph, members):
    """Of each row that members found or wrote the place of the version to begin with; and who wrote later ones that they may have met."""
    base = {}
    for item, chain in graph.chains.items():
        written = [n for n, v in enumerate(chain) if v.writer in members]
        if written:
            base[item] = written[0] - 1
    looks = [x for k in members for x in graph.met.get(k, ())]
    for item, fits, found in looks:
        if found and item in graph.chains and item not in base:
            base[item] = min(fits, default=0)
    while True:
        missing, lower = set(), [x for item, fits, _ in looks if item in base for x in strange_versions(graph, item, fits, base[item], members)]
        for item, p in lower:
            if p < base[item]:
                base[item] = p
                break
            missing.add(graph.chains[item][p].writer)
        else:
            return base, missing


def strange_versions(graph, item, fits, b, members):
    """Of the versions that a member may have met those in whose place the cut would show another that it can't have met."""
    chain = graph.chains[item]
    for p in fits:
        shown = max(q for q in range(b, max(p, b) + 1) if q == b or chain[q].writer in members)
        if shown not in fits:
            yield item, p


def may_be_joined(graph, k, base, members):
    """Whether a join of a member might give other rows in the cut, where the rows that it didn't find have any of their versions there."""
    for query, reply, found in graph.joined.get(k, ()):
        parts = []
        for relation, mine in zip(query.relations, found):
            near = [(item, n) for item, b in base.items() if item[0] == relation for n, v in enumerate(graph.chains[item])
                    if n == b or v.writer in members and v.writer != k]
            met = {item: fits for item, fits, was_found in graph.met.get(k, ()) if was_found}
            rows = {graph.chains[item][n].row for item, n in near if item not in mine or n in met[item]}
            parts.append([row for row in rows if row is not None])
        names = tuple("part%d" % part for part in range(len(parts)))
        if answer(query._replace(relations=names), {name: dict(enumerate(rows)) for name, rows in zip(names, parts)}) != reply:
            return True
    return False


def rows_left(graph, members, tables):
    """The rows that the members left, by what the engine did: of each row the version of a member that stands last."""
    left = {name: dict(rows) for name, rows in tables.items()}
    for (name, key), chain in graph.chains.items():
        mine = [v for v in chain if v.writer in members]
        if mine:
            apply(left, {(name, key): mine[-1].row})
    return left if graph.ordered else {}
