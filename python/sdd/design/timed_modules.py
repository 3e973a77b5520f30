"""The transaction modules of a timed run, and the module of undeclared transactions.

They do what reference/transaction_module.py, attempts.py, exchange.py and undeclared_module.py do: of what is due the first.
"""
from collections import deque

from sdd.design.plans import effect_of
from sdd.design.timed_messages import ASK, DONE, FETCH, HELD, HOLD, NULL, READ, READY, REDUCE, REDUCED, REJECT, RELEASE, ROWS, SHIP, VALUES, WRITE


class Line:
    """The transactions of a class: those that queue, and the attempt under way."""
    __slots__ = ("cls", "queue", "attempt", "asks")

    def __init__(self, cls):
        self.cls, self.queue, self.attempt, self.asks = cls, deque(), None, []


class Module:
    """A transaction module, or that of undeclared transactions."""
    __slots__ = ("site", "number", "ticks", "lines", "by_class", "holds", "helds", "releases", "is_down", "held_back")

    def __init__(self, site, number, classes):
        self.site, self.number, self.ticks = site, number, 0
        self.lines = [Line(c) for c in classes]
        self.by_class = {line.cls: line for line in self.lines}
        self.holds = self.helds = self.releases = 0
        self.is_down, self.held_back = False, {}

    def push(self, time):
        if time >> 6 > self.ticks:
            self.ticks = time >> 6

    def bound(self):
        return self.ticks * 64 + 63


class Attempt:
    """An attempt and its exchange of messages."""
    __slots__ = ("plan", "number", "time", "cls", "lacks", "held", "frozen", "queries", "steps", "move", "union", "phase")

    def __init__(self, plan, number, time):
        self.plan, self.number, self.time, self.cls = plan, number, time, plan.cls
        self.lacks = {read.module for read in plan.reads}
        self.held, self.phase = {}, READY
        self.frozen, self.queries, self.steps, self.move, self.union = {}, plan.moves, set(), None, set()


class Modules:
    """What a run does at its transaction modules."""

    def at_module(self, module, sender, message):
        if module.is_down:
            module.held_back.setdefault(sender, []).append(message)
            return
        kind = message[0]
        if kind == ASK:
            self.asked(module, module.by_class[message[1]], sender, message[2])
        elif kind == HOLD:
            module.holds += 1
            self.tell_held(module)
        elif kind == RELEASE:
            module.push(message[2])
            module.releases += 1
            self.start_next(module)
        elif kind == HELD or kind == DONE:
            self.undeclared(module, sender, kind, message[2])
        else:
            self.answered(module, module.by_class[message[1]], sender, message)

    def asked(self, module, line, sender, time):
        if time >> 6 > module.ticks:
            module.ticks = time >> 6
        attempt = line.attempt
        if attempt is None:
            self.send(module.site, sender, (NULL, line.cls, module.ticks * 64 + 63))
        elif attempt.time >= time:
            self.send(module.site, sender, (NULL, line.cls, attempt.time))
        else:
            line.asks.append(sender)

    def answered(self, module, line, sender, message):
        """An answer of a data module to the attempt under way; one to an attempt before counts no more."""
        attempt, kind = line.attempt, message[0]
        if kind == REJECT:
            module.push(message[4])
        if attempt is None or attempt.time != message[2]:
            return
        if kind == REJECT:
            line.attempt = None
            self.is_idle(module, line)
            self.start_next(module)
            return
        if kind == VALUES:
            attempt.union |= message[3]
        attempt.lacks.discard(sender - self.tms)
        if not attempt.lacks:
            self.go_on(module, line, attempt)

    def go_on(self, module, line, attempt):
        if attempt.phase == ROWS:
            self.commit(module, line)
            self.start_next(module)
        elif attempt.phase == VALUES:
            self.reduce(module, attempt)
        elif attempt.queries and self.next_move(module, attempt):
            pass
        else:
            self.ask(module, attempt, [read.module for read in attempt.plan.reads], ROWS, (SHIP,))

    def ask(self, module, attempt, stores, phase, message):
        attempt.phase, attempt.lacks = phase, set(stores)
        whole = (message[0], attempt.cls, attempt.time, attempt) + message[1:]
        for d in stores:
            self.send(module.site, self.tms + d, whole)

    def next_move(self, module, attempt):
        """The next step that reduces what is read for a query, if there is one."""
        while attempt.queries:
            count = lambda use: sum(len(rows) for (u, _), rows in attempt.frozen.items() if u == use)  # noqa: E731
            found = [(count(m.source), k) for k, m in enumerate(attempt.queries[0])
                     if m.step not in attempt.steps and count(m.source) < count(m.target)]
            if found:
                move = attempt.move = attempt.queries[0][min(found)[1]]
                attempt.steps.add(move.step)
                attempt.union = set()
                stores = [d for (u, d) in sorted(attempt.frozen) if u == move.source]
                if stores:
                    self.ask(module, attempt, stores, VALUES, (FETCH, move.source, move.source_column))
                else:
                    self.reduce(module, attempt)
                return True
            attempt.queries, attempt.steps = attempt.queries[1:], set()
        return False

    def reduce(self, module, attempt):
        move = attempt.move
        stores = [d for (u, d) in sorted(attempt.frozen) if u == move.target]
        self.ask(module, attempt, stores, REDUCED, (REDUCE, move.target, move.target_column, frozenset(attempt.union)))

    def start_next(self, module):
        """Starts what can start, unless the module is down; a transaction that reads nothing commits at once."""
        again = not module.is_down
        while again:
            again = False
            for line in module.lines if module.number else ():
                if line.attempt is None and line.queue and module.holds == module.releases:
                    again = self.start(module, line)
                    break

    def start(self, module, line):
        """Starts an attempt of the first in the queue; whether more can be due at once."""
        first = line.queue[0]
        plan, first[1] = first[0], first[1] + 1
        p2 = module.bound()
        module.ticks += 1
        own = module.ticks * 64 + module.number
        attempt = line.attempt = Attempt(plan, first[1], own)
        told = self.told[plan.number]
        told.attempts += 1
        if told.started is None:
            told.started = self.now
        if self.trace is not None:
            self.record("start", "%s#%d" % (plan.name, first[1]), self.class_name(plan.cls), own, p2 if plan.cls else "-")
        for read in plan.reads:
            conds = tuple([(c, own if is_p3 else p2, fragments) for c, is_p3, fragments in read.conds])
            self.send(module.site, self.tms + read.module, (READ, plan.cls, own, attempt, conds, read.uses))
        if plan.reads:
            return len(module.lines) > 1
        self.commit(module, line)
        return True

    def commit(self, module, line):
        attempt = line.attempt
        plan, line.attempt = attempt.plan, None
        line.queue.popleft()
        self.told[plan.number].committed = self.now
        if self.trace is not None:
            self.record("commit", "%s#%d" % (plan.name, attempt.number))
        self.write(module, plan, attempt.time, effect_of(plan, attempt.held))
        if plan.cls:
            self.is_idle(module, line)
        else:
            self.commits, self.undeclared_time, self.dones = self.commits + 1, attempt.time, 0

    def write(self, module, plan, time, changes):
        """Sends to each data module what changes there; an undeclared transaction writes at all of them, if only nothing."""
        if not changes and plan.cls:
            return
        copies = self.plans.copies
        for store in self.stores:
            here = [(f, key, row) for (f, key), row in changes.items() if store.number in copies[f]]
            if here or plan.cls == 0:
                self.send(module.site, store.site, (WRITE, plan.cls, time, plan, here))

    def is_idle(self, module, line):
        """Nothing of the class is under way: who asked gets an answer."""
        for sender in line.asks:
            self.send(module.site, sender, (NULL, line.cls, module.bound()))
        line.asks.clear()
        self.tell_held(module)

    def tell_held(self, module):
        if module.holds > module.releases and module.helds < module.holds and all(x.attempt is None for x in module.lines):
            module.helds += 1
            self.send(module.site, 0, (HELD, 0, module.bound()))

    # Undeclared transactions.

    def undeclared(self, module, sender, kind, time):
        if kind == HELD:
            module.push(time)
            self.held_counts[sender] += 1
        elif time == self.undeclared_time:
            self.dones += 1
        self.serve_undeclared()

    def serve_undeclared(self):
        """Releases behind a commit that is applied everywhere; holds for the next transaction, and starts it."""
        module = self.modules[0]
        line = module.lines[0]
        if line.attempt is not None:
            return
        for t in range(1, self.tms + 1):
            if self.release_counts[t] < self.commits and self.dones == len(self.stores):
                self.release_counts[t] += 1
                self.send(0, t, (RELEASE, 0, self.undeclared_time))
        if not line.queue:
            return
        if all(h == k == self.commits + 1 for h, k in zip(self.hold_counts[1:], self.held_counts[1:])):
            self.start(module, line)
            return
        for t in range(1, self.tms + 1):
            if self.release_counts[t] == self.hold_counts[t]:
                self.hold_counts[t] += 1
                self.send(0, t, (HOLD, 0, 0))
