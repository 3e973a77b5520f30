"""Searches for a schedule that goes wrong where one rule of the system is broken, and cuts it down.

    sdd find-broken RULE CATALOGUE WORKLOAD FROM TO

RULE is one of those of sdd/reference/breaking.py. The transactions are those of WORKLOAD. Its own events are tried, and for
each seed from FROM up to TO, without it, a schedule is drawn that ends with a settle; each is carried out by the
reference with the rule broken. Where no serial order explains what comes out (sdd all-orders), events are taken away as long
as that stays so. The workload that is left with the fewest events is printed. It ends with 1 where no seed finds one.
"""
import random

from sdd.bench import random_input
from sdd.command import parser
from sdd.judge.all_orders import MOST, explaining_order, read_inputs
from sdd.model.spelling import workload_text
from sdd.model.workload import Event
from sdd.programs import report_by
from sdd.reference import breaking
from sdd.reference.order import serial_order
from sdd.reference.plain import serial
from sdd.reference.world import run


def outcome(cat, work):
    """The replies by number, the copies with their rows, the order that is printed, and whether nothing is pending."""
    world = run(cat, work)
    replies = {r.txn: r.reply for r in world.records if r.kind == "commit"}
    copies = [(f, [row for _, row in copy.rows()]) for site, module in world.sites.items() if site.kind == "D"
              for f, copy in module.copies.items()]
    is_finished = set(replies) == set(work.submitted()) and world.links.is_quiet() and not world.down
    return replies, copies, serial_order(world.cat, world.records), is_finished


def goes_wrong(cat, work, rule):
    replies, copies, order, is_finished = outcome(cat, work)
    if not is_finished or not replies or len(replies) > MOST:
        return False
    if rule == "commit-order":      # what comes out has an order, but not the one that is printed
        return serial(cat, work.rows, [work.txns[n - 1] for n in order])[0] != [replies[n] for n in order]
    return explaining_order(cat, work, replies, copies) is None


def cut_down(cat, work, rule):
    """The workload with events, and then transactions, taken away as long as it goes wrong."""
    size = len(work.events)
    while size:
        for at in range(len(work.events) - size, -1, -1):
            less = work._replace(events=work.events[:at] + work.events[at + size:])
            if goes_wrong(cat, less, rule):
                work = less
                break
        else:
            size = size // 2 if size > 8 else size - 1
    return work


def main():
    asked = parser(__doc__)
    asked.add_argument("rule", choices=list(breaking.RULES), metavar="RULE")
    for name in ("catalogue", "workload"):
        asked.add_argument(name, metavar=name.upper())
    asked.add_argument("first", type=int, metavar="FROM")
    asked.add_argument("end", type=int, metavar="TO")
    asked = asked.parse_args()
    cat, work = read_inputs(asked.catalogue, asked.workload)
    breaking.break_rule(asked.rule)
    drawn = [work] + [scheduled(cat, work, seed) for seed in range(asked.first, asked.end)]
    found = [cut_down(cat, x, asked.rule) for x in drawn if goes_wrong(cat, x, asked.rule)]
    if not found:
        report_by("no seed finds one")
        return 1
    print(workload_text(cat, min(found, key=lambda x: len(x.events))), end="")
    return 0


def scheduled(cat, work, seed):
    """The workload with the schedule of a seed."""
    rng = random.Random(seed)
    drawn = random_input.schedule(rng, cat, work._replace(events=[]), rng.choice([4, 8, 12, 20, 30]))
    left = [n for n in range(1, len(work.txns) + 1) if n not in drawn.submitted()]
    return drawn._replace(events=drawn.events + [Event("submit", txn=n) for n in left] + [Event("settle")])
