"""Why a line of a trace is wrong: the rule that it breaks, by the state of the system just before it.

    text = why_wrong(cat, work, number, should, told)       # number: of the line, from 0
"""
from sdd.model.workload import U, Site
from sdd.reference.world import World

KINDS = ("submit", "start", "arrive", "wait", "answer", "reject", "commit", "apply", "pass", "nothing")
ABOUT_READS = ("arrive", "wait", "answer", "reject")
WHY_DUE = {
    "submit": "this event submits it", "start": "its class is idle, and it is the first that queues there", "arrive": "its READ is delivered",
    "wait": "a class of its conditions hasn't passed its time", "answer": "each class of its conditions has passed its time",
    "reject": "a change that it must not see is applied there", "commit": "all answers are there",
    "apply": "its WRITE is the first of its pipe, and no READ waits that must not see it", "pass": "the NULL is the first of its pipe",
    "nothing": "this event finds nothing to do"}


class Reached(Exception):
    pass


class Counting(World):
    """A world that counts what it does: events and acts at sites, and stops before that of a number."""

    def __init__(self, cat, work, stop=None):
        super().__init__(cat, work)
        self.stop, self.acts, self.made_by = stop, 0, []       # made_by: of each record the number of the act

    def one_more(self):
        if self.acts == self.stop:
            raise Reached
        self.acts += 1

    def record(self, record):
        self.made_by.append(self.acts - 1)
        super().record(record)

    def do(self, event):
        self.one_more()
        return super().do(event)

    def finish(self):
        todo = sorted(self.busy, key=lambda site: site.rank)
        while True:
            for site in todo:
                while self.acts_at(site):
                    pass
            todo = self.hand_over()
            if not todo:
                return

    def acts_at(self, site):
        self.one_more()
        act = self.sites[site].act()
        if act:
            self.note(site, *act)
        return act


def carried_out(world):
    try:
        for _ in world.happens():
            pass
    except Reached:
        pass
    return world


def world_before(cat, work, number):
    """The world before the act of which the line of this number tells; where there is none, at the end."""
    made_by = carried_out(Counting(cat, work)).made_by
    return carried_out(Counting(cat, work, made_by[number] if number < len(made_by) else None))


def why_wrong(cat, work, number, should, told):
    words, due = told.split(" "), (should or "").split(" ")
    if len(words) < 2 or not words[0].isdigit():
        return "this is no line of a trace: it begins with the number of an event"
    if words[1] not in KINDS:
        return "there is no line `%s`; there are %s" % (words[1], ", ".join(KINDS))
    if words[1:] == due[1:]:
        return "this happens in event %s" % due[0]
    if should is None:
        return "nothing more happens"
    judge = Judge(world_before(cat, work, number), words, due)
    if int(words[0]) > int(due[0]):
        return "before it a line of event %s is missing: %s" % (due[0], WHY_DUE[due[1]])
    try:
        return judge.why()
    except (KeyError, ValueError, IndexError, StopIteration):
        return "it names what isn't there"


class Judge:
    """A line that was told, the line that is due, and the world before both."""

    def __init__(self, world, words, due):
        self.world, self.words, self.due, self.kind = world, words, due, words[1]
        self.numbers = {txn.name: n for n, txn in enumerate(world.work.txns, 1)}

    def why(self):
        if self.kind in ABOUT_READS:
            return self.of_read()
        return getattr(self, "of_" + self.kind)()

    def class_name(self, number):
        return self.world.cat.class_name(number)

    def store(self, word):
        return self.world.sites[Site("D", int(word[1:]))]

    def attempt(self):
        name, number = self.words[2].split("#")
        return self.numbers[name], int(number)

    def not_due(self):
        """The told line may come, but another is due before it."""
        return "it isn't due yet: of what is due at a site the first is done, and that is `%s`" % " ".join(self.due)

    # Lines about READs.

    def of_read(self):
        number, attempt = self.attempt()
        store = self.store(self.words[3])
        for cls, pipe in enumerate(store.pipes):
            for place, message in enumerate(pipe.came):
                if message.kind == "READ" and (message.txn, message.attempt) == (number, attempt):
                    return self.of_read_at(store, pipe, place, message)
        if self.kind == "arrive":
            return "its READ hasn't been delivered to %s" % self.words[3]
        return "there is no READ of it at %s: it wasn't delivered" % self.words[3]

    def of_read_at(self, store, pipe, place, message):
        if self.kind == "arrive":
            return "it has arrived before" if place < pipe.done or pipe.waits else self.not_due()
        if place < pipe.done:
            return "its READ was answered or rejected before"
        if place > pipe.done:
            return "an earlier message of its class stands before it in the pipe"
        lacking = [c for c in message.conds if not store.is_met(c)]
        spoilt = [c for c in message.conds if store.spoils(c)]
        return getattr(self, "of_%s_at_head" % self.kind)(store, pipe, message, lacking, spoilt)

    def of_answer_at_head(self, store, pipe, message, lacking, spoilt):
        if lacking:
            cond = lacking[0]
            passed = store.pipes[cond.cls].passed()
            return "answered too early: %s has passed %s at %s, and not yet %d (%s)" % (
                self.class_name(cond.cls), passed if passed >= 0 else "nothing", self.words[3], cond.time, protocol_of(cond, message))
        if spoilt and not pipe.waits:
            return self.spoilt_text(store, spoilt[0]) + ": it is rejected"
        return self.not_due()

    def spoilt_text(self, store, cond):
        last = store.pipes[cond.cls].last_write(cond.fragments)
        return "a change of %s with the time %d is applied there, and the READ may see changes before %d alone" % (self.class_name(cond.cls), last, cond.time)

    def of_reject_at_head(self, store, pipe, message, lacking, spoilt):
        if pipe.waits:
            return "a READ that waits is never rejected: the WRITEs that it must not see are held"
        if not spoilt:
            return "rejected, though no change of a class of its conditions at or after its time is applied there"
        return self.spoilt_text(store, spoilt[0])

    def of_wait_at_head(self, store, pipe, message, lacking, spoilt):
        if pipe.waits:
            return "it waits already"
        if spoilt:
            return self.spoilt_text(store, spoilt[0]) + ": it is rejected"
        if not lacking:
            return "it waits, though each class of its conditions has passed its time, or it has no conditions (P1)"
        wanted = ", ".join("%s %d (%s)" % (self.class_name(c.cls), c.time, protocol_of(c, message)) for c in lacking)
        return "it waits for %s" % wanted if self.due[1] == "wait" and self.due[2:4] == self.words[2:4] else self.not_due()

    # The others.

    def of_submit(self):
        return "this event submits another" if self.due[1] == "submit" else "nothing is submitted in this place"

    def of_start(self):
        number, _ = self.attempt()
        home = self.world.homes.get(number)
        if home is None:
            return "it starts, though it isn't submitted yet"
        if self.due[1] == "start" and self.due[2] == self.words[2]:
            return self.of_times()
        if home == U:
            return "no class covers it, and it starts once every transaction module holds and nothing is under way"
        module = self.world.sites[home]
        line = next(x for x in module.lines.values() if any(q.number == number for q in x.queue))
        if not line.is_idle:
            return "its class %s has an attempt under way: transactions of one class run one after the other" % self.class_name(line.cls)
        if module.on_hold:
            return "%s holds for a transaction that no class covers" % str(home)
        if line.queue[0].number != number:
            return "of its class the one that was submitted first starts first"
        return self.not_due()

    def of_times(self):
        names = ("the class", "the timestamp", "the time of P2")
        for name, told, due in zip(names, self.words[3:6], self.due[3:6]):
            if told != due:
                return "%s is %s%s" % (name, due, clock_text(name, due))
        return "a start has an attempt, a class, its timestamp and the time of P2"

    def of_commit(self):
        number, attempt = self.attempt()
        if number not in self.world.homes:
            return "it commits, though it isn't submitted yet"
        standing = self.world.sites[self.world.homes[number]].standing(number)
        if standing is None:
            return "it has committed before"
        if standing[0] == "queued":
            return "it commits, though no attempt of it is under way"
        lacking = standing[3]
        return self.not_due() if lacking == U else "it commits, though answers of %s are missing" % str(lacking)

    def of_apply(self):
        number, store = self.numbers[self.words[2]], self.store(self.words[3])
        for pipe in store.pipes:
            for place, message in enumerate(pipe.came):
                if message.kind == "WRITE" and message.txn == number:
                    return self.of_apply_at(store, pipe, place, message)
        return "applied, though its WRITE isn't delivered at %s" % self.words[3]

    def of_apply_at(self, store, pipe, place, message):
        if place < pipe.done:
            return "it is applied there already"
        if place > pipe.done:
            return "an earlier message of its class stands before it in the pipe"
        held = store.held_by(message)
        return "it is held: a READ of %s waits that must not see it" % self.class_name(held[0]) if held else self.not_due()

    def of_pass(self):
        if self.due[1] == "pass" and self.due[2:4] == self.words[2:4]:
            return "the time that it has passed is %s" % self.due[4]
        cls = next(k for k, c in enumerate(self.world.cat.classes, 1) if c.name == self.words[2])
        line = self.world.sites[Site("T", self.world.cat.classes[cls - 1].tm)].lines[cls]
        if not line.is_idle and line.time < int(self.words[4]):
            return "no NULL of %s has come there: its attempt with the timestamp %d is under way, and until it has ended %s can't promise %s" % (
                self.words[2], line.time, self.words[2], self.words[4])
        return "no NULL of %s is at the head of its pipe at %s" % (self.words[2], self.words[3])

    def of_nothing(self):
        return "this event finds something to do" if self.due[0] == self.words[0] else "no event without effect is due"


def protocol_of(cond, message):
    """By P3 a READ asks up to its own timestamp, by P2 up to the time before its attempt."""
    return "P3" if cond.time == message.time else "P2"


def clock_text(name, due):
    """How a time is made."""
    if name == "the timestamp" and due.isdigit():
        return " = 64 x %d + %d" % (int(due) // 64, int(due) % 64)
    return " = 64 x %d + 63, before the clock's tick" % (int(due) // 64) if name == "the time of P2" and due.isdigit() else ""
