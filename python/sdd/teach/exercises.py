"""The twelve exercises: what each asks for, what it begins with, and how a hand-in is judged.

    exercise = EXERCISES[2]                     # the third
    faults = exercise.judge(text)               # what is missing, in words; none where the hand-in is right
"""
import pkgutil
from typing import Callable, NamedTuple

from sdd.judge.find_broken import goes_wrong
from sdd.model.catalogue import read_catalogue
from sdd.model.files import BadInput
from sdd.model.words import Fault
from sdd.model.workload import read_workload
from sdd.reference import breaking, graph, plain
from sdd.reference.order import serial_order
from sdd.reference.world import Limit, World
from sdd.teach.grade import Grader

WORKLOAD, REPORT, CATALOGUE = "workload", "report", "catalogue.toml"        # what is handed in


class Exercise(NamedTuple):
    title: str
    task: str
    hint: str
    catalogue: str          # of the folder starts/
    workload: str
    takes: str
    judged: Callable        # of the exercise and a text: what is missing

    def judge(self, text):
        """What is missing of a hand-in, in words."""
        return self.judged(self, text.removeprefix("\ufeff").replace("\r\n", "\n"))


def start_text(name):
    return pkgutil.get_data("sdd.teach", "starts/" + name).decode().replace("\r\n", "\n")


def start_of(exercise):
    cat = read_catalogue(start_text(exercise.catalogue).encode())
    return cat, read_workload(cat, start_text(exercise.workload).encode())


class Run:
    """What a workload does, by the names of its transactions."""

    def __init__(self, cat, work):
        self.work, self.world, self.events = work, World(cat, work), []
        self.lost = []          # of T1 to D1: the messages, by their numbers, of which a packet was lost
        for happened in self.world.happens():
            self.events.append(happened.event)
            if happened.event.word == "lose" and (str(happened.event.a), str(happened.event.b)) == ("T1", "D1") and type(happened.found) is int:
                self.lost.append(happened.found)
        self.names = {n: txn.name for n, txn in enumerate(work.txns, 1)}
        self.order = [self.names[n] for n in serial_order(self.world.cat, self.world.records)]

    def records(self, kind, name=None):
        return [r for r in self.world.records if r.kind == kind and name in (None, self.names.get(r.txn))]

    def at(self, kind, name):
        """The number of the event in which this happens first; None where it never does."""
        return next((r.event for r in self.records(kind, name)), None)

    def submitted_at(self, name):
        return self.at("submit", name)

    def written(self, *words):
        """The events of the hand-in that begin so; those of a settle aren't among them."""
        lines = [event.words(self.work.txns) for event in self.work.events]
        return [line for line in lines if line.split(" ")[:len(words)] == list(words)]

    def all_commit(self):
        return {x.name for x in self.work.txns} <= set(self.order)

    def rows_of(self, name):
        """The rows of the first query of a reply."""
        replies = [r.reply for r in self.records("commit", name)]
        return replies[0].answers[0] if replies and replies[0].answers else None


def before(a, b):
    return a is not None and b is not None and a < b


def of_schedule(*checks):
    """Judges a workload that has the transactions of the exercise, and other events: pairs of what is asked for and a test of the run."""
    def judged(exercise, text):
        cat, start = start_of(exercise)
        work = read_workload(cat, text.encode())
        if (work.rows, work.txns) != (start.rows, start.txns):
            return ["its rows and transactions have to be those of the exercise"]
        run = Run(cat, work)
        return [what for what, test in (*checks, ("all transactions commit", Run.all_commit)) if not test(run)]
    return judged


def breaks(rule):
    def judged(exercise, text):
        cat, start = start_of(exercise)
        work = read_workload(cat, text.encode())
        if (work.rows, work.txns) != (start.rows, start.txns):
            return ["its rows and transactions have to be those of the exercise"]
        breaking.break_rule(rule)
        try:
            wrong = goes_wrong(cat, work, rule)
        finally:
            breaking.mend()
        return [] if wrong else ["with the rule broken, what comes out is still that of a serial order, or something is pending"]
    return judged


def by_hand(exercise, text):
    cat, work = start_of(exercise)
    faults = Grader(cat, work).faults(text)
    return ["%s, line %d: %s" % (x.part, x.line, x.why) for x in faults[:1]]


def nobody_waits(exercise, text):
    start, _ = start_of(exercise)
    cat = read_catalogue(text.encode())
    if cat.relations != start.relations or (cat.tms, cat.dms) != (start.tms, start.dms):
        return ["its relations and modules have to be those of the exercise"]
    work = read_workload(cat, start_text(exercise.workload).encode())
    bare = [work.txns[n - 1].name for n in work.submitted() if plain.class_for(cat, work.txns[n - 1]) == 0]
    slow = [graph.read_words(cat, x) for x in graph.protocol_table(cat) if x.edge.kind == "diagonal" and x.protocol != "P1"]
    missing = ["each transaction has a class: not so %s" % ", ".join(bare[:3]) + (" .." if len(bare) > 3 else "")] if bare else []
    return missing + (["no read is by P2 or P3: %d are, as `%s`" % (len(slow), slow[0])] if slow else [])


def judge_text(exercise, text):
    """What is missing; a text that isn't accepted is refused in one line."""
    try:
        return exercise.judge(text)
    except Fault as fault:
        return [fault.line.strip()]
    except Limit:
        return ["the run has too many events"]
    except BadInput as fault:
        return [str(fault)]


def applied_as_it_comes(run):
    """Whether each WRITE is applied in the event in which it arrives: its link's packet is delivered then."""
    homes = {r.txn: run.work.txns[r.txn - 1].tm for r in run.records("submit")}
    for r in run.records("apply"):
        event = run.events[r.event - 1]
        if event.word != "deliver" or (str(event.a), str(event.b)) != ("T%d" % homes[r.txn], "D%d" % r.dm):
            return False
    return True


EXERCISES = [
    Exercise(
        "A read waits",
        "Three transactions: `down` looks into the north and fills up the south, `up` the other way round, `tally` counts both. Make a schedule in which "
        "the READ of `tally` waits at D1 and at D2, and all three commit.",
        "Submit all three, deliver the packets of tally (T3), and look at the page: whom does it wait for? Then settle.",
        "two_protocols.toml", "two_protocols.work", WORKLOAD,
        of_schedule(("tally waits at D1", lambda x: any(r.dm == 1 for r in x.records("wait", "tally"))),
                    ("tally waits at D2", lambda x: any(r.dm == 2 for r in x.records("wait", "tally"))))),
    Exercise(
        "A read is rejected",
        "`sell` looks at the free seats, `close` closes one of them. Let the READ of `sell` be rejected once; then both commit.",
        "A READ is rejected when it comes too late: a change that it must not see is there already. Which packet has to overtake which?",
        "rejected_read.toml", "rejected_read.work", WORKLOAD,
        of_schedule(("sell is rejected once", lambda x: len(x.records("reject", "sell")) == 1))),
    Exercise(
        "The new price",
        "`raise` sets a new price, `look` reads it. Let `look` see the new price (120), although it is submitted before the change arrives at D1.",
        "The page shows what lies in the lanes of D1's tray. Which packet has to come first, and which clock has to be ahead?",
        "bridge.toml", "bridge.work", WORKLOAD,
        of_schedule(("look sees 120", lambda x: x.rows_of("look") == ((1, 120),)),
                    ("look is submitted before raise is applied", lambda x: before(x.submitted_at("look"), x.at("apply", "raise"))))),
    Exercise(
        "A bad line",
        "T1 sends three changes to D1. Lose two packets at least of each of the three, and let `view` see the last change (3) all the same.",
        "`lose T1 D1 1` loses the first packet in flight, `resend T1 D1` sends what isn't acknowledged once more.",
        "lost_packet.toml", "lost_packet.work", WORKLOAD,
        of_schedule(("of each of the three messages of T1 to D1 two packets are lost", lambda x: all(x.lost.count(n) >= 2 for n in (1, 2, 3))),
                    ("view sees 3", lambda x: x.rows_of("view") == ((3,),)))),
    Exercise(
        "Everything at once",
        "Let `sell` be rejected, wait once, and lose a READ once, in one run. All commit.",
        "Begin with exercise 2. The second attempt has a later timestamp: whom does its READ wait for?",
        "rejected_read.toml", "rejected_read.work", WORKLOAD,
        of_schedule(("sell is rejected", lambda x: x.records("reject", "sell")), ("sell waits", lambda x: x.records("wait", "sell")),
                    ("a READ of T1 is lost on its way to D1", lambda x: set(x.lost) & {1, 2}))),
    Exercise(
        "A module is down",
        "D1 goes down before anything is submitted, and comes up after all four are submitted. `view` sees 3, the last change.",
        "What is delivered to a module that is down lies there until it is up. In which order does it take that then?",
        "lost_packet.toml", "lost_packet.work", WORKLOAD,
        of_schedule(("D1 is down before the first submission", lambda x: before(place_of(x, "down D1"), place_of(x, "submit"))),
                    ("D1 comes up after the last submission", lambda x: before(last_place_of(x, "submit"), place_of(x, "up D1"))),
                    ("view sees 3", lambda x: x.rows_of("view") == ((3,),)))),
    Exercise(
        "Another serial order",
        "The same three transactions as in exercise 1, submitted in the order down, up, tally. Let `up` stand before `down` in the serial order.",
        "Each of the two looks where the other writes. Whoever has the smaller timestamp comes first: which clock has to be ahead?",
        "two_protocols.toml", "two_protocols.work", WORKLOAD,
        of_schedule(("they are submitted in the order down, up, tally", lambda x: x.written("submit") == ["submit down", "submit up", "submit tally"]),
                    ("up stands before down in the order", lambda x: {"up", "down"} <= set(x.order) and x.order.index("up") < x.order.index("down")))),
    Exercise(
        "No write is held",
        "`show` reads while `cold` writes. Let `show` wait and `cold` be submitted before `show` is answered; and yet `cold`'s WRITE is applied in "
        "the event in which it arrives: it is never held back for the READ that waits.",
        "A module that is asked answers with how far it is. What must it have answered before `cold` is submitted?",
        "held_write.toml", "held_write.work", WORKLOAD,
        of_schedule(("show waits", lambda x: x.records("wait", "show")),
                    ("cold is submitted before show is answered", lambda x: before(x.submitted_at("cold"), x.at("answer", "show"))),
                    ("cold is submitted after show has come to D1", lambda x: before(x.at("arrive", "show"), x.submitted_at("cold"))),
                    ("cold's WRITE is applied as it arrives", applied_as_it_comes))),
    Exercise(
        "Before the inventory",
        "No class covers `audit`, and everything is held until it has committed. Submit `audit` before `late`, and let `late` commit first.",
        "T2 stops to start transactions once it has got the HOLD of U. Until then?",
        "undeclared.toml", "undeclared.work", WORKLOAD,
        of_schedule(("audit is submitted before late", lambda x: before(x.submitted_at("audit"), x.submitted_at("late"))),
                    ("late commits before audit", lambda x: before(x.at("commit", "late"), x.at("commit", "audit"))))),
    Exercise(
        "Be the system",
        "Write the report of this run by hand: the trace, the order, the replies, what was shipped, the copies. docs/FORMATS.md has the lines, and the "
        "tutorial a similar run. Hand in the text; you are told the first line that is wrong, and the rule that it breaks.",
        "Go through the events one by one. Both READs at D1 wait; who is asked, and what does it answer? In the settle first what lies still is "
        "resent, then each link delivers what is in flight; the numbers of the events you may take from `sdd page`.",
        "two_protocols.toml", "by_hand.work", REPORT, by_hand),
    Exercise(
        "What is holding a write for?",
        "A system that forgets one rule: it doesn't hold a write back while a READ waits that must not see it (`sdd reference --break no-hold run ..`). "
        "Find a schedule after which no serial order explains what came out.",
        "`counted` reads at two modules. At one it must have read before `carried`, at the other it must see what `carried` wrote.",
        "stalls.toml", "stalls.work", WORKLOAD, breaks("no-hold")),
    Exercise(
        "Nobody waits",
        "A ticket office at two houses, in which everybody waits. Write another catalogue for the same workload, in which no read is by P2 or P3 and "
        "each transaction has a class.",
        "docs/DESIGN.md has the patterns. Cut the fragments where one house's numbers end; make one class of those that change the same thing at one module.",
        "tickets.toml", "tickets.work", CATALOGUE, nobody_waits),
]


def places_of(run, line):
    return [k for k, event in enumerate(run.work.events) if (event.words(run.work.txns) + " ").startswith(line + " ")]


def place_of(run, line):
    return next(iter(places_of(run, line)), None)


def last_place_of(run, line):
    return next(reversed(places_of(run, line)), None)
