"""The protocol table as `sdd1 table` prints it, and what changed between two of them.

    protocols = read_protocols(text)
"""
from sdd.view.graph_picture import protocols_of

MOST = 24                   # of more pairs of a reader and a writer these are reported


def read_protocols(text):
    """Of each reader, fragment and writer the protocol."""
    return {(reader, fragment, writer): protocol for (reader, writer, fragment), (_, protocol) in protocols_of(text).items()}


def count_protocols(protocols):
    return ", ".join("%s %d" % (x, sum(y == x for y in protocols.values())) for x in ("P1", "P2", "P3"))


def group_fragments(protocols):
    """The same with the fragments of a reader and a writer in one line."""
    made = {}
    for (reader, fragment, writer), protocol in protocols.items():
        made.setdefault((reader, writer, protocol), []).append(fragment)
    return made


def print_protocols(protocols):
    print("\nprotocol table: %s" % count_protocols(protocols))
    waiting = [x for x in group_fragments(protocols).items() if x[0][2] != "P1"]
    for (reader, writer, protocol), fragments in waiting[:MOST]:
        print("  %s waits for %s by %s (%s)" % (reader, writer, protocol, ", ".join(fragments)))
    if len(waiting) > MOST:
        print("  .. and %d more" % (len(waiting) - MOST))


def print_changes(first, second):
    """What stands in one table alone, and what has another protocol."""
    print("\nprotocol table: %s -> %s" % (count_protocols(first), count_protocols(second)))
    gone = {x: p for x, p in first.items() if x not in second}
    new = {x: p for x, p in second.items() if x not in first}
    for sign, pairs in (("-", list(group_fragments(gone).items())), ("+", list(group_fragments(new).items()))):
        for (reader, writer, protocol), fragments in pairs[:MOST]:
            print("  %s %s reads %s, writer %s: %s" % (sign, reader, ", ".join(fragments), writer, protocol))
        if len(pairs) > MOST:
            print("  %s .. and %d more" % (sign, len(pairs) - MOST))
    for reader, fragment, writer in first:
        before, after = first[reader, fragment, writer], second.get((reader, fragment, writer))
        if after is not None and after != before:
            print("  ~ %s reads %s, writer %s: %s -> %s" % (reader, fragment, writer, before, after))
    if first == second:
        print("  no change")
