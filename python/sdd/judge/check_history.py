"""Judges a history by its direct serialization graph, which is made of the history alone.

    sdd check-history HISTORY

HISTORY is what sdd to-elle writes (`-` is standard input): an operation a line, as EDN, in the form
of Elle's list-append histories, with :type, :process, :value and, if there is one, :name. It was tried on
such histories alone. Of the operations of type :ok it takes the reads and appends of each item, and the
process. Of one of type :info nobody knows whether it happened: its appends are taken where somebody read one
of them. One of type :fail didn't happen. The nodes of the graph are these transactions; an edge leads

    ww   from who appended a version of an item to who appended the next one,
    wr   from who appended the version that is the last of a read to the reader,
    rw   from a reader to who appended the version behind the last one that it read,
    so   from a transaction to the next one of its process.

The order of an item's versions is that of the longest list that was read; what nobody read stands behind.
A cycle means that no serial order gives these reads. Faults are also a version that is appended twice, a
read of one that nobody appended or that was appended by a transaction that failed, two reads of an item of
which neither begins the other, and a transaction that doesn't see its own append, or sees it beforehand.
What is judged is serializability, not strict serializability: that an operation ended before another one began
counts for nothing but in one process.
It prints what it found, a line each, and ends with status 1; or one line with the counts, and ends with 0.
"""
import re
import sys

from sdd.command import parser
from sdd.model.files import BadInput

TOKEN = re.compile(r'[\s,]*([\[\](){}]|"(?:[^"\\]|\\.)*"|[^\s,\[\](){}"]+)')
CLOSING = {"[": "]", "(": ")", "{": "}"}


def edn(text):
    """The value that a line of EDN spells; of EDN what histories have: maps, lists, texts, words."""
    tokens = TOKEN.findall(text)
    if re.sub(TOKEN, "", text).strip(" ,\t"):
        raise ValueError

    def value(k):
        token = tokens[k]
        if token in CLOSING:
            made, k = [], k + 1
            while tokens[k] != CLOSING[token]:
                one, k = value(k)
                made.append(one)
            return (dict(zip(made[::2], made[1::2], strict=True)) if token == "{" else tuple(made)), k + 1
        if token in CLOSING.values():
            raise ValueError
        if token.startswith('"'):
            return re.sub(r"\\(.)", r"\1", token[1:-1]), k + 1
        return (None if token == "nil" else int(token) if re.fullmatch(r"-?\d+", token) else token), k + 1
    made, end = value(0)
    if end != len(tokens):
        raise ValueError
    return made


class Transaction:
    def __init__(self, name, process, steps, kind=":ok"):
        self.name, self.process, self.steps = name, process, steps
        self.reads = [(item, versions or ()) for step, item, versions in steps if step == ":r" and kind == ":ok"]
        self.appends = [(item, version) for step, item, version in steps if step == ":append"]

    def own_faults(self):
        """Where it doesn't see what it appended itself, or sees it before that."""
        if not self.reads:
            return
        mine = {}                                   # item -> its own appends so far
        for kind, item, value in self.steps:
            if kind == ":append":
                mine.setdefault(item, []).append(value)
                continue
            own, seen = mine.get(item, []), list(value or ())
            if seen[len(seen) - len(own):] != own:
                yield "%s reads versions %s of %s behind its own append of %s" % (self.name, seen, item, own[-1])
            elif {(item, x) for x in seen[:len(seen) - len(own)]} & set(self.appends):
                yield "%s reads its own append to %s before it" % (self.name, item)


class History:
    """The operations of a file, by what became of them."""

    def __init__(self):
        self.done, self.failed, self.unknown = [], [], []

    def transactions(self):
        """Those that happened: an unknown one did where somebody read what it appended."""
        read = {(item, x) for t in self.done for item, versions in t.reads for x in versions}
        return self.done + [t for t in self.unknown if not read.isdisjoint(t.appends)]

    def add(self, reported, number):
        name = reported.get(":name", "op %s" % reported.get(":index", number))
        if reported[":type"] == ":ok":
            self.done.append(Transaction(name, reported[":process"], reported[":value"]))
        elif reported[":type"] == ":fail":
            self.failed.append(Transaction(name, None, reported[":value"] or (), ":fail"))
        elif reported[":type"] == ":info":
            self.unknown.append(Transaction(name, None, reported[":value"] or (), ":info"))


def read_history(path):
    made = History()
    try:
        with sys.stdin if path == "-" else open(path, encoding="utf-8") as f:
            lines = f.read().split("\n")
    except (OSError, UnicodeDecodeError) as fault:
        raise BadInput("%s: %s" % (path, getattr(fault, "strerror", None) or "not UTF-8")) from None
    for number, line in enumerate(lines, 1):
        if not line.strip():
            continue
        try:
            made.add(edn(line), number)
        except (ValueError, KeyError, TypeError, IndexError, AttributeError):
            raise BadInput("%s: line %d: no operation of a history" % (path, number)) from None
    if not made.done:
        raise BadInput("%s: no transaction in it" % path)
    return made


class Graph:
    """The direct serialization graph, and what was found wrong while it was made."""

    def __init__(self, history):
        self.transactions = transactions = history.transactions()
        self.aborted = {x: t.name for t in history.failed for x in t.appends}
        self.faults = [x for t in transactions for x in t.own_faults()]
        self.edges = [{} for _ in transactions]     # to -> why
        self.writer = {}                            # item, version -> place of a transaction
        self.readers = {}                           # item -> reads of it, with the place of the transaction
        for k, t in enumerate(transactions):
            for item, version in t.appends:
                if (item, version) in self.writer:
                    self.faults.append("%s and %s both append version %s of %s" % (
                        transactions[self.writer[item, version]].name, t.name, version, item))
                self.writer[item, version] = k
            for item, versions in t.reads:
                self.readers.setdefault(item, []).append((versions, k))
        behind = {}                                 # item -> versions that nobody read
        for item, version in self.writer:
            behind.setdefault(item, []).append(version)
        for item in sorted(behind.keys() | self.readers.keys(), key=str):
            self.add_item(item, behind.get(item, []))
        last = {}
        for k, t in enumerate(transactions):
            if t.process is not None:
                if t.process in last:
                    self.add(last[t.process], k, "so")
                last[t.process] = k

    def add(self, a, b, why):
        if a != b:
            self.edges[a].setdefault(b, why)

    def add_item(self, item, appended):
        reads = self.readers.get(item, [])
        longest, _ = max(reads, key=lambda x: len(x[0]), default=((), None))
        good = []
        for versions, k in reads:
            name = self.transactions[k].name
            strange = [x for x in versions if (item, x) not in self.writer]
            if strange:
                who = "nobody" if (item, strange[0]) not in self.aborted else self.aborted[item, strange[0]] + ", which failed,"
                self.faults.append("%s reads version %s of %s, which %s appended" % (name, strange[0], item, who))
            elif versions != longest[:len(versions)]:
                self.faults.append("%s reads versions %s of %s, and another transaction %s" % (name, list(versions), item, list(longest)))
            else:
                good.append((versions, k))
        known = [self.writer[item, x] for x in longest if (item, x) in self.writer]
        unread = [self.writer[item, x] for x in appended if x not in longest]
        for a, b in zip(known, known[1:]):
            self.add(a, b, "ww " + item)
        for b in unread if known else []:
            self.add(known[-1], b, "ww " + item)
        for versions, k in good:
            if versions:
                self.add(self.writer[item, versions[-1]], k, "wr " + item)
            for b in known[len(versions):len(versions) + 1] or unread:
                self.add(k, b, "rw " + item)

    def cycle(self):
        """A shortest cycle through the first transaction that lies on one, as places; or None."""
        on_one = next((x for x in self.components() if len(x) > 1), None)
        if on_one is None:
            return None
        start = min(on_one)
        came, front = {start: None}, [start]
        while not any(start in self.edges[a] for a in front):
            longer = []
            for a, b in ((a, b) for a in front for b in sorted(self.edges[a])):
                if b in on_one and b not in came:
                    came[b] = a
                    longer.append(b)
            front = longer
        path = [next(a for a in front if start in self.edges[a])]
        while came[path[-1]] is not None:
            path.append(came[path[-1]])
        return path[::-1]

    def components(self):
        """The strongly connected components, by two walks over the graph."""
        finished, seen = [], set()
        for root in range(len(self.edges)):
            stack = [] if root in seen else [(root, iter(self.edges[root]))]
            seen.add(root)
            while stack:
                a, rest = stack[-1]
                b = next((x for x in rest if x not in seen), None)
                if b is None:
                    finished.append(stack.pop()[0])
                else:
                    seen.add(b)
                    stack.append((b, iter(self.edges[b])))
        back = [[] for _ in self.edges]
        for a, out in enumerate(self.edges):
            for b in out:
                back[b].append(a)
        taken = set()
        for root in reversed(finished):
            mine, todo = set(), [root]
            while todo:
                a = todo.pop()
                if a not in taken:
                    taken.add(a)
                    mine.add(a)
                    todo += back[a]
            if mine:
                yield mine


def cycle_line(graph, cycle):
    names = [graph.transactions[k].name for k in cycle]
    said = names[0]
    for a, b in zip(cycle, cycle[1:] + cycle[:1]):
        said += " -%s-> %s" % (graph.edges[a][b], graph.transactions[b].name)
    return "cycle: " + said


def main():
    asked = parser(__doc__)
    asked.add_argument("history", metavar="HISTORY")
    asked = asked.parse_args()
    graph = Graph(read_history(asked.history))
    faults = list(graph.faults)
    cycle = graph.cycle()
    if cycle:
        faults.append(cycle_line(graph, cycle))
    for x in faults:
        print(x)
    if not faults:
        print("no cycle: %d transactions, %d edges" % (len(graph.transactions), sum(map(len, graph.edges))))
    return 1 if faults else 0
