"""A data module: a pipe for each class, copies of fragments, and the rows that it holds frozen for attempts.

What comes through a pipe is processed in order: a NULL passes, a WRITE is applied unless a READ that waits must not see
it, a READ is rejected, answered, or waits until each of its conditions is met. Definition: crates/sdd_rules/specs/dm/Due.antt,
Views.antt, Copies.antt; crates/sdd_pipe/specs/Pipe.antt, sdd_copy/specs/Contents.antt, Frozen.antt.
"""
from sdd.model.workload import Site, U
from sdd.reference.breaking import is_broken
from sdd.reference.messages import PIPED, Message, Record
from sdd.reference.plain import meets


class Pipe:
    """The messages of a class in the order in which they came, and what is known of those that were processed."""

    def __init__(self):
        self.came = []
        self.done = 0               # how many are processed
        self.latest = -1            # the greatest time that was processed
        self.written = {}           # fragment -> the greatest timestamp of a WRITE that changed it
        self.waits = False          # whether the head is a READ that waits

    @property
    def head(self):
        return self.came[self.done] if self.done < len(self.came) else None

    def passed(self):
        """The greatest time that the class has passed."""
        return self.head.time if self.head else self.latest

    def process(self):
        message, self.waits = self.head, False
        self.done += 1
        self.latest = max(self.latest, message.time)
        for fragment, _, _ in message.changes:
            self.written[fragment] = max(self.written.get(fragment, 0), message.time)
        return message

    def last_write(self, fragments):
        return max((self.written[f] for f in fragments if f in self.written), default=None)


class Copy:
    """A copy of a fragment: by key the date of the change that stands, and its row, or None for a deletion."""

    def __init__(self):
        self.items = {}

    def apply(self, key, date, row):
        """Of the changes of an item the one with the greatest date stands."""
        if key not in self.items or date > self.items[key][0] or is_broken("by-arrival"):
            self.items[key] = date, row
            if row is None and is_broken("deletion-date"):
                del self.items[key]

    def rows(self):
        """Pairs of a key and its row, ascending."""
        return [(key, self.items[key][1]) for key in sorted(self.items) if self.items[key][1] is not None]


class DataModule:
    def __init__(self, cat, number, rows, bases):
        self.cat, self.number, self.bases = cat, number, bases
        self.homes = [U] + [Site("T", c.tm) for c in cat.classes]
        self.pipes = [Pipe() for _ in self.homes]
        self.frozen = {}            # class -> use -> rows, with the attempt's timestamp as "time"
        self.questions = []         # pairs of a site and a READ, FETCH, REDUCE or SHIP that is to be answered
        self.copies = {f.name: Copy() for f in cat.fragments if number in f.copies}
        for relation, row in rows:
            key = cat.relation[relation].key_of(row)
            copy = self.copies.get(cat.fragment_of(relation, key))
            if copy:
                copy.items[key] = 0, row

    def handed(self, site, message):
        if message.kind in PIPED:
            self.pipes[message.cls].came.append(message)
        if message.kind in ("READ", "FETCH", "REDUCE", "SHIP"):
            self.questions.append((site, message))
        if message.kind == "REDUCE":
            self.reduce(message)

    def reduce(self, message):
        held = self.frozen.get(message.cls, {})
        if held.get("time") == message.time and message.use in held:
            held[message.use] = [row for row in held[message.use] if row[message.column] in message.values]

    def act(self):
        """Does the first thing that is due: a record or None, and what is sent with it. None where nothing is due."""
        for cls in range(len(self.pipes)):
            question = next((q for q in self.questions if q[1].cls == cls), None)
            if question:
                self.questions.remove(question)
                return self.answer_question(*question)
        for cls, pipe in enumerate(self.pipes):
            act = pipe.head and self.head_act(cls, pipe, pipe.head)
            if act:
                return act
        return None

    # Questions.

    def answer_question(self, site, message):
        held = self.frozen.get(message.cls, {})
        rows = held.get(message.use, [])
        about = {"cls": message.cls, "time": message.time}
        if message.kind == "READ":
            return Record("arrive", message.txn, message.attempt, message.cls, self.number), []
        if message.kind == "FETCH":
            values = tuple(sorted({row[message.column] for row in rows}))
            return None, [(site, Message("VALUES", **about, use=message.use, values=values))]
        if message.kind == "REDUCE":
            return None, [(site, Message("REDUCED", **about, counts=((message.use, len(rows)),)))]
        every = tuple((use, row) for use in held if use != "time" for row in held[use])
        self.frozen.pop(message.cls, None)
        return None, [(site, Message("ROWS", **about, rows=every))]

    # Heads of pipes.

    def head_act(self, cls, pipe, head):
        if head.kind == "NULL":
            pipe.process()
            return Record("pass", cls=cls, dm=self.number, time=head.time), []
        if head.kind == "WRITE":
            return None if self.held_by(head) else self.apply(pipe, head)
        lacking = [c for c in head.conds if not self.is_met(c)]
        if pipe.waits:
            return None if lacking else self.answer(pipe, head)
        spoilt = next((c for c in head.conds if self.spoils(c)), None)
        if spoilt:
            return self.reject(pipe, head, spoilt)
        return self.wait(pipe, head, lacking) if lacking else self.answer(pipe, head)

    def is_met(self, cond):
        return self.pipes[cond.cls].passed() >= cond.time

    def spoils(self, cond):
        """A WRITE was processed that the READ should not see."""
        last = self.pipes[cond.cls].last_write(cond.fragments)
        return last is not None and last >= cond.time

    def held_by(self, write):
        """The classes whose READ waits and must not see the WRITE; one of an undeclared transaction is never held."""
        if write.cls == 0 or is_broken("no-hold"):
            return []
        changed = {fragment for fragment, _, _ in write.changes}
        return [cls for cls, pipe in enumerate(self.pipes) if pipe.waits and any(
            c.cls == write.cls and c.time <= write.time and changed & set(c.fragments) for c in pipe.head.conds)]

    def apply(self, pipe, write):
        pipe.process()
        for fragment, key, row in write.changes:
            self.copies[fragment].apply(key, write.time, row)
        done = [(U, Message("DONE", time=write.time))] if write.cls == 0 else []
        return Record("apply", write.txn, cls=write.cls, dm=self.number, time=write.time), done

    def about(self, kind, read, **more):
        return Record(kind, read.txn, read.attempt, more.pop("cls", read.cls), self.number, **more)

    def reject(self, pipe, read, cond):
        write = self.pipes[cond.cls].last_write(cond.fragments)
        pipe.process()
        message = Message("REJECT", read.cls, read.time, by=cond.cls, write=write)
        return self.about("reject", read, cls=cond.cls, time=write), [(self.homes[read.cls], message)]

    def wait(self, pipe, read, lacking):
        pipe.waits = True
        asks = [(self.homes[c.cls], Message("ASK", c.cls, c.time)) for c in lacking]
        return self.about("wait", read, conds=tuple(lacking)), asks

    def answer(self, pipe, read):
        """The rows that it reads are frozen, and how many they are is reported."""
        pipe.process()
        held = {use.number: self.rows_for(use) for use in read.uses}
        counts = tuple((use, len(rows)) for use, rows in held.items())
        self.frozen[read.cls] = {"time": read.time, **held}
        self.take_snapshot(read)
        return self.about("answer", read), [(self.homes[read.cls], Message("READY", read.cls, read.time, counts=counts))]

    def rows_for(self, use):
        found = {}
        for fragment in use.fragments:
            found.update(self.copies[fragment].rows())
        conds = [c._replace(column=c.column._replace(part=0)) for c in use.conds]
        return [found[key] for key in sorted(found) if all(meets(c, (found[key],)) for c in conds)]

    def take_snapshot(self, read):
        """What the attempt's effect is computed on: the whole copies of the fragments that it reads here."""
        base = self.bases.setdefault(read.time, {})
        for fragment in {f for use in read.uses for f in use.fragments}:
            relation = self.cat.fragment[fragment].relation
            base.update({(relation, key): row for key, row in self.copies[fragment].rows()})

    def wait_of(self, cls, time):
        """The first condition that isn't met of the READ of a class with this timestamp that waits here, or None."""
        pipe = self.pipes[cls]
        if not pipe.waits or pipe.head.time != time:
            return None
        return next((c for c in pipe.head.conds if not self.is_met(c)), None)
