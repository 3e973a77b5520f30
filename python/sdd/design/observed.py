"""What sdd explore takes from a report of `run`: how long transactions waited, for whom, and what they shipped.

    observed = observe(text)

Only the lines that are needed are read, since thousands of reports are; report.py reads all of them.
"""
from typing import NamedTuple



class Wait(NamedTuple):
    module: str
    awaited: tuple          # the classes for which it waits
    events: int             # None where the run ends before it is answered


class Reported:
    """What a report tells of one transaction."""

    def __init__(self, submitted):
        self.cls, self.submitted, self.started, self.committed, self.attempts = None, submitted, None, None, 0
        self.waits, self.values, self.rows = [], 0, 0

    def latency(self):
        return None if self.committed is None else self.committed - self.submitted


class Observed(NamedTuple):
    transactions: dict      # name -> Reported
    events: int             # the number of the last event with a record
    idle: int               # how many events found nothing to do
    pending: tuple = ()     # the transactions that aren't committed at the end

    def commits(self):
        return sum(x.committed is not None for x in self.transactions.values())


def observe(text):
    reported, begun, idle, event = {}, {}, 0, "0"
    lines = iter(text.split("\n"))
    for line in lines:
        event_word, _, rest = line.partition(" ")
        if not event_word.isdigit():
            break
        event = event_word
        kind, _, rest = rest.partition(" ")
        if kind == "nothing":
            idle += 1
        elif kind in TAKEN:
            TAKEN[kind](reported, begun, int(event), rest.split(" "))
    for (name, _, module), (_, awaited) in begun.items():
        reported[name].waits.append(Wait(module, awaited, None))
    pending = []
    for line in lines:
        if line.startswith("shipped "):
            _, name, values, rows = line.split(" ")
            reported[name].values, reported[name].rows = int(values), int(rows)
        elif line.startswith("pending "):
            pending.append(line.split(" ")[1])
        elif line.startswith("copy "):
            break
    return Observed(reported, int(event), idle, tuple(pending))


def take_submit(reported, _, event, words):
    reported[words[0]] = Reported(event)


def take_start(reported, _, event, words):
    mine = reported[words[0].partition("#")[0]]
    mine.cls, mine.attempts = words[1], mine.attempts + 1
    mine.started = event if mine.started is None else mine.started


def take_wait(_, begun, event, words):
    name, _, attempt = words[0].partition("#")
    begun[name, attempt, words[1]] = event, tuple(words[2::2])


def take_end(reported, begun, event, words):
    """An answer or a rejection, which ends a wait where there was one."""
    name, _, attempt = words[0].partition("#")
    since = begun.pop((name, attempt, words[1]), None)
    if since is not None:
        reported[name].waits.append(Wait(words[1], since[1], event - since[0]))


def take_commit(reported, _, event, words):
    reported[words[0].partition("#")[0]].committed = event


TAKEN = {"submit": take_submit, "start": take_start, "wait": take_wait, "answer": take_end, "reject": take_end, "commit": take_commit}
