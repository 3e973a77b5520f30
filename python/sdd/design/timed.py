"""A run with the times of its links: which message arrives when, and what each transaction waited for.

    run = TimedRun(plans, times, phases, rng)

A phase is a list of pairs of a time in milliseconds and an event of the workload; `times` has the distances between sites and
how long each handles a message (times.py). It does what the program does, message by message, but knows no
acknowledgements, which nothing waits for where no packet is lost. timed_links.py knows them, and packets that are lost.
"""
from heapq import heappop, heappush

from sdd.design.timed_modules import Module, Modules
from sdd.design.timed_stores import Store, Stores

SUBMIT, TICK, DOWN, UP, SERVED, RESEND = range(-6, 0)      # what stands on the heap in place of a receiver


class Told:
    """What a run tells of one transaction; times in milliseconds."""
    __slots__ = ("plan", "submitted", "started", "committed", "attempts", "waits")

    def __init__(self, plan, submitted):
        self.plan, self.submitted, self.started, self.committed, self.attempts, self.waits = plan, submitted, None, None, 0, []


class TimedRun(Modules, Stores):
    trace = None            # timed_links.py keeps one

    def __init__(self, plans, times, phases, rng):
        """`phases` are lists of such events; each begins once all of the one before has ended."""
        self.plans, self.random, self.jitter = plans, rng.random, times.jitter / 100
        self.tms, self.size, self.base = plans.cat.tms, times.size, times.base
        self.last = [0.0] * (times.size * times.size)           # when the packet that was sent last on a link arrives
        self.service, self.free = times.service, [0.0] * times.size
        self.heap, self.count, self.now, self.messages, self.era = [], 0, 0.0, 0, 0
        self.told = {}
        self.has_settles, self.quiet = len(phases) > 1, 0.0     # quiet: when the last acknowledgement has come
        self.build()
        for phase in phases:
            begin = max(self.now, self.quiet)
            for time, event in phase:
                self.plan_event(begin + time, event)
            self.carry_out()

    def build(self):
        homes = self.plans.homes
        self.modules = [Module(0, 0, [0])] + [
            Module(t, t, [c for c in range(1, len(homes)) if homes[c] == t]) for t in range(1, self.tms + 1)]
        self.stores = [Store(self.tms + d, d, len(homes) - 1, copies) for d, copies in enumerate(self.plans.first_rows(), 1)]
        self.dones, self.commits, self.undeclared_time = 0, 0, 0
        self.hold_counts, self.held_counts, self.release_counts = ([0] * (self.tms + 1) for _ in range(3))

    # Time.

    def plan_event(self, time, event):
        if event.word == "redeclare":
            self.redeclare()
        else:
            self.push(time, {"submit": SUBMIT, "tick": TICK, "down": DOWN, "up": UP}[event.word], 0, event)

    def push(self, time, to, sender, message):
        self.count += 1
        heappush(self.heap, (time, self.count, to, sender, message))

    def carry_out(self):
        heap, takers = self.heap, self.takers()
        while heap:
            self.now, _, to, sender, message = heappop(heap)
            if to >= 0:
                take, site = takers[to]
                take(site, sender, message)
            elif to == SERVED:
                self.receive(message[0], sender, message[1])
            else:
                self.do(to, message)

    def takers(self):
        """By the numbers of sites: what is called where something arrives, and its first word."""
        if self.service is not None or self.has_settles:
            return [(self.receive if self.service is None else self.serve, to) for to in range(self.size)]
        return [(self.at_module, x) for x in self.modules] + [(self.at_store, x) for x in self.stores]

    def receive(self, to, sender, message):
        if self.has_settles:
            self.quiet = max(self.quiet, self.now + self.base[to * self.size + sender])
        if to > self.tms:
            self.at_store(self.stores[to - self.tms - 1], sender, message)
        else:
            self.at_module(self.modules[to], sender, message)

    def serve(self, to, sender, message):
        """A site handles its messages one after the other."""
        done = self.free[to] = max(self.now, self.free[to]) + self.service[to]
        self.push(done, SERVED, sender, (to, message))

    def send(self, a, b, message):
        link = a * self.size + b
        time = self.now + self.base[link] * (1 + self.jitter * self.random())
        last = self.last
        if time < last[link]:
            time = last[link]
        else:
            last[link] = time
        self.count = count = self.count + 1
        self.messages += 1
        heappush(self.heap, (time, count, b, a, message))

    def packets(self):
        """How many packets arrived: a message and its acknowledgement each."""
        return 2 * self.messages

    # Events of the workload.

    def do(self, kind, event):
        if kind == SUBMIT:
            self.submit(event.txn)
        elif kind == TICK:
            self.modules[event.a.number].ticks += event.n
        else:
            self.turn(event.a, kind == DOWN)

    def submit(self, number):
        plan = self.plans.plan(number, self.era)
        if self.trace is not None:
            self.record("submit", plan.name)
        self.told[number] = Told(plan, self.now)
        module = self.modules[plan.tm]
        module.by_class[plan.cls].queue.append([plan, 0])
        if plan.cls:
            self.start_next(module)
        else:
            self.serve_undeclared()

    def turn(self, site, is_down):
        """A module that is down takes no messages and starts nothing; once it is up it starts what queues, and then takes what arrived, link by link."""
        is_store = site.kind == "D"
        at = self.stores[site.number - 1] if is_store else self.modules[site.number]
        if at.is_down == is_down and self.trace is not None:
            self.record("nothing")
        at.is_down = is_down
        if not is_down:
            take, held, at.held_back = self.at_store if is_store else self.at_module, at.held_back, {}
            if not is_store:
                self.start_next(at)
            for sender in sorted(held):
                for message in held[sender]:
                    take(at, sender, message)

    def redeclare(self):
        self.era += 1
        time = max(x.bound() for x in self.modules[1:])
        for module in self.modules[1:]:
            module.push(time)
