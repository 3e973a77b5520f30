"""Rules that can be broken on purpose, to see what goes wrong without each: `--break RULE`.

Each is asked by `is_broken` at the one place where the rule stands. examples/broken has an outcome of each that no
serial order explains.
"""

RULES = {
    "all-p1": "every read takes what is there when it comes",
    "p2-for-p3": "a read of P3 asks up to the time before its attempt, as one of P2 does",
    "no-hold": "a write isn't held back while a read waits that must not see it",
    "by-arrival": "a copy takes each change that arrives, also one with a smaller date",
    "deletion-date": "a copy forgets the date of a deletion",
    "early-release": "the transaction modules are released before every data module has applied the write",
    "early-null": "an ASK is answered although an attempt with a smaller timestamp is under way",
    "commit-order": "the order that is printed is that of the commits",
}
broken = set()


def break_rule(name):
    broken.add(name)


def mend():
    broken.clear()


def is_broken(name):
    return name in broken
