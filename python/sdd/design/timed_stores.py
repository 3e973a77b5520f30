"""The data modules of a timed run: pipes, READs that wait, WRITEs that are held, copies.

They do what reference/data_module.py does: of what is due the first.
"""
from collections import deque

from sdd.design.timed_messages import ASK, DONE, FETCH, NULL, READ, READY, REDUCED, REJECT, ROWS, SHIP, VALUES, WRITE


class Pipe:
    __slots__ = ("came", "latest", "written", "waits", "unmet")

    def __init__(self):
        self.came, self.latest, self.written = deque(), -1, {}
        self.waits, self.unmet = None, []       # of a READ that waits: since when and for whom; conditions, once met met for good

    def passed(self):
        return self.came[0][2] if self.came else self.latest


class Store:
    """A data module.

    Between two messages nothing is due: each pipe is empty, or its head is a READ that waits or a WRITE that is held.
    """
    __slots__ = ("site", "number", "pipes", "copies", "awaiting", "waiting", "held", "is_down", "held_back")

    def __init__(self, site, number, classes, copies):
        self.site, self.number, self.copies = site, number, copies
        self.pipes = [Pipe() for _ in range(classes + 1)]
        self.awaiting = [set() for _ in range(classes + 1)]     # of each class the classes whose READ waits for it next
        self.waiting, self.held = set(), set()                  # classes whose head is a READ that waits, or a WRITE that is held
        self.is_down, self.held_back = False, {}


class Stores:
    """What a run does at its data modules."""

    def at_store(self, store, sender, message):
        if store.is_down:
            store.held_back.setdefault(sender, []).append(message)
            return
        kind, cls = message[0], message[1]
        if kind > NULL:
            self.answer_question(store, sender, message)
            return
        pipe = store.pipes[cls]
        if kind == NULL and not pipe.came and self.trace is None:       # two of three messages are such: passed at once
            if message[2] > pipe.latest:
                pipe.latest = message[2]
            if store.awaiting[cls]:
                self.work_off(store, set(store.awaiting[cls]))
            return
        if kind == READ and self.trace is not None:
            self.record("arrive", "%s#%d" % (message[3].plan.name, message[3].number), "D%d" % store.number)
        pipe.came.append(message)
        if len(pipe.came) == 1:
            self.work_off(store, {cls} | store.awaiting[cls])

    def answer_question(self, store, sender, message):
        kind, cls, time, attempt = message[:4]
        if kind == SHIP:
            reply = (ROWS, cls, time)
        elif kind == FETCH:
            rows = attempt.frozen.get((message[4], store.number), ())
            reply = (VALUES, cls, time, {row[message[5]] for row in rows})
        else:
            place = message[4], store.number
            if place in attempt.frozen:
                attempt.frozen[place] = [row for row in attempt.frozen[place] if row[message[5]] in message[6]]
            reply = (REDUCED, cls, time)
        self.send(store.site, sender, reply)

    def work_off(self, store, due):
        """Does what is due at the heads of the pipes, always that of the lowest class; only these classes can have any."""
        while due:
            cls = min(due)
            pipe = store.pipes[cls]
            if pipe.came and self.do_head(store, cls, pipe):
                due |= store.awaiting[cls]
                if store.held:
                    due |= store.held
            else:
                due.remove(cls)

    def do_head(self, store, cls, pipe):
        """Does what is due at the head of a pipe; whether the head is worked off."""
        message = pipe.came[0]
        kind = message[0]
        if kind == READ:
            return self.go_on_waiting(store, cls, pipe, message) if pipe.unmet else self.do_read(store, cls, pipe, message)
        if kind == WRITE:
            if store.waiting and cls and self.is_held(store, message):
                store.held.add(cls)
                return False
            store.held.discard(cls)
            self.apply(store, cls, pipe, message)
        elif self.trace is not None:
            self.record("pass", self.class_name(cls), "D%d" % store.number, message[2])
        self.process(pipe, message[2])
        return True

    def process(self, pipe, time):
        pipe.came.popleft()
        if time > pipe.latest:
            pipe.latest = time

    def is_held(self, store, message):
        """Whether a READ waits here that must not see the WRITE."""
        changed = {f for f, _, _ in message[4]}
        return any(c == message[1] and time <= message[2] and changed & fragments
                   for other in store.waiting for c, time, fragments in store.pipes[other].came[0][4])

    def apply(self, store, cls, pipe, message):
        time, written = message[2], pipe.written
        if self.trace is not None:
            self.record("apply", message[3].name, "D%d" % store.number)
        for fragment, key, row in message[4]:
            copy = store.copies[fragment]
            if key not in copy or time > copy[key][0]:
                copy[key] = time, row
            if time > written.get(fragment, 0):
                written[fragment] = time
        if cls == 0:
            self.send(store.site, 0, (DONE, 0, time))

    def do_read(self, store, cls, pipe, message):
        conds, pipes = message[4], store.pipes
        for c, time, fragments in conds:
            written = pipes[c].written
            last = max((written[f] for f in fragments if f in written), default=None) if written else None
            if last is not None and last >= time:
                self.reject(store, cls, pipe, message, c, last)
                return True
        lacking = [c for c in conds if pipes[c[0]].passed() < c[1]]
        if lacking:
            self.wait(store, cls, pipe, message, lacking)
            return False
        self.answer(store, cls, pipe, message)
        return True

    def wait(self, store, cls, pipe, message, lacking):
        pipe.waits, pipe.unmet = (self.now, tuple([c[0] for c in lacking])), lacking
        store.waiting.add(cls)
        store.awaiting[lacking[-1][0]].add(cls)
        if self.trace is not None:
            self.record("wait", self.attempt_name(message), "D%d" % store.number, *[x for c in lacking for x in (self.class_name(c[0]), c[1])])
        homes = self.plans.homes
        for c, time, _ in lacking:
            self.send(store.site, homes[c], (ASK, c, time))

    def go_on_waiting(self, store, cls, pipe, message):
        """Answers a READ that waits once all its conditions are met; a condition that is met stays so."""
        unmet, pipes, before = pipe.unmet, store.pipes, pipe.unmet[-1][0]
        while unmet:
            awaited, time, _ = unmet[-1]
            came = pipes[awaited].came
            if (came[0][2] if came else pipes[awaited].latest) < time:
                if awaited != before:
                    store.awaiting[before].discard(cls)
                    store.awaiting[awaited].add(cls)
                return False
            unmet.pop()
        store.awaiting[before].discard(cls)
        store.waiting.discard(cls)
        since, awaited = pipe.waits
        self.told[message[3].plan.number].waits.append((store.number, awaited, self.now - since))
        self.answer(store, cls, pipe, message)
        return True

    def attempt_name(self, message):
        return "%s#%d" % (message[3].plan.name, message[3].number)

    def reject(self, store, cls, pipe, message, by, last):
        if self.trace is not None:
            self.record("reject", self.attempt_name(message), "D%d" % store.number, self.class_name(by), last)
        self.process(pipe, message[2])
        self.send(store.site, self.plans.homes[cls], (REJECT, cls, message[2], by, last))

    def answer(self, store, cls, pipe, message):
        attempt = message[3]
        if self.trace is not None:
            self.record("answer", self.attempt_name(message), "D%d" % store.number)
        self.process(pipe, message[2])
        joined = bool(attempt.plan.moves)
        for use in message[5]:
            rows = self.rows_for(store, use)
            if use.number in attempt.held:
                attempt.held[use.number] += rows
            else:
                attempt.held[use.number] = rows
            if joined:
                attempt.frozen[use.number, store.number] = [row for _, row in rows]
        self.send(store.site, self.plans.homes[cls], (READY, cls, message[2]))

    def rows_for(self, store, use):
        """Pairs of a fragment and a row."""
        found, key, conds = [], use.key, use.conds
        for fragment in use.fragments:
            copy = store.copies[fragment]
            items = copy.values() if key is None else (copy[key],) if key in copy else ()
            for _, row in items:
                if row is None:
                    continue
                for place, test, value in conds:
                    if not test(row[place], value):
                        break
                else:
                    found.append((fragment, row))
        return found
