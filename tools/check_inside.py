#!/usr/bin/env python3
"""Compares the text of a run's events (docs/INSIDE.md) with the reference's, and reads it back beside its world.

    tools/check_inside.py FROM TO [--inside COMMAND]

For each seed from FROM up to TO, without it, a run is drawn. The text is that of COMMAND, a built
`sdd1_inside`, and each of its lines has to be that of the reference (`sdd reference`), byte for byte; or it is
the reference's own. It is read by its two rules alone (sdd/view/replay.py), and behind each event what the
reader has is compared with the world that the reference carries out: flights, acknowledgements, messages
that are handed over, pipes, queues, sites, and rows at the end. So a line that tells a change wrongly is
found, also where program and reference tell it alike. It ends with 1 where there was a difference.
"""
import json
import os
import random
import tempfile

import sdd_path  # noqa: F401
from random_calls import run_call
from sdd.command import count, parser, start
from sdd.model.catalogue import read_catalogue
from sdd.model.workload import Site, read_workload
from sdd.programs import output_of, words_of
from sdd.reference.inside import Watch, row_word, spelled
from sdd.reference.links import Ack
from sdd.reference.world import World
from sdd.view.replay import Contradiction, Reader

SECONDS = 120


class Differs(Exception):
    """The first difference of a run."""


def same(what, have, want):
    if have != want:
        raise Differs("%s: %s, in the reference %s" % (what, have, want))


def check(files, text):
    """Reads a text beside the reference's world, event by event; how many there were."""
    catalogue = read_catalogue(files["cat"])
    world = World(catalogue, read_workload(catalogue, files["work"]))
    watch = Watch(world)
    lines = text.split("\n") if text else None
    if lines and lines.pop() != "":
        raise Differs("the text doesn't end with a line")
    first = spelled(watch.first_line())[:-1]
    same("the first line", lines[0] if lines else first, first)
    read = [json.loads(first)]
    reader = Reader(read[0])
    for happened in world.happens():
        reported = spelled(watch.line(happened))[:-1]
        if lines and len(read) == len(lines):
            raise Differs("the text ends before event %d" % world.events)
        same("the line of event %d" % world.events, lines[len(read)] if lines else reported, reported)
        read.append(json.loads(reported))
        reader.apply(read[-1])
        compare(reader, watch)
    if lines and len(read) < len(lines):
        raise Differs("the text goes on behind event %d" % world.events)
    compare_copies(read, world)
    return len(read) - 1


def compare(reader, watch):
    at, world = "event %d: " % reader.event, watch.world
    for link, way in world.links.ways.items():
        names = tuple(map(str, link))
        flight = [{"ack": x.upto} if isinstance(x, Ack) else x for x in way.flight]
        same(at + "in flight on %s %s" % names, reader.flight[names], flight)
        same(at + "sent and acknowledged on %s %s" % names, (reader.sent[names], reader.acked[names]), (len(way.sent), way.acked))
        same(at + "arrived and handed over on %s %s" % names, (reader.delivered[names], reader.handed[names]), (way.delivered, world.handed[link]))
    for site, module in world.sites.items():
        if site.kind == "D":
            compare_pipes(at, reader, watch, site, module)
        else:
            for line in watch.lines_at(site):
                queue = [watch.name(x.number) for x in line.queue]
                same(at + "the queue of " + watch.cls(line.cls), reader.queues[watch.cls(line.cls)], queue)
        reported = reader.sites.get(str(site))
        if reported is not None:
            same(at + "what is reported of %s" % str(site), reported, watch.site(site))


def compare_pipes(at, reader, watch, site, module):
    for cls, pipe in enumerate(module.pipes):
        link, name = (str(module.homes[cls]), str(site)), watch.cls(cls)
        if pipe.came:
            same(at + "the time that %s has passed at %s" % (name, site), reader.passed.get((str(site), name)), pipe.passed())
        have = [(x["kind"], x["time"]) for x in (reader.bodies[link + (n,)] for n in reader.pipes[str(site), name])]
        same(at + "the pipe of %s at %s" % (name, site), have, [(x.kind, x.time) for x in pipe.came[pipe.done:]])


def compare_copies(lines, world):
    """The rows at the end, each reported at its last change, are those of the copies."""
    have = {}
    for line in lines[1:]:
        for dm, fragment, key, row in line.get("rows", ()):
            have[dm, fragment, key] = row
    for (dm, fragment, key), row in have.items():
        items = world.sites[Site("D", int(dm[1:]))].copies[fragment].items
        same("the row %s of %s at %s" % (key, fragment, dm), row, row_word(items.get(int(key), (0, None))[1]))


def text_of_program(command, files):
    with tempfile.TemporaryDirectory(prefix="inside-") as folder:
        paths = [os.path.join(folder, x) for x in ("cat", "work")]
        for path in paths:
            with open(path, "wb") as f:
                f.write(files[os.path.basename(path)])
        return output_of(command + paths, SECONDS)


def main():
    asked = parser(__doc__)
    asked.add_argument("first", metavar="FROM", type=count)
    asked.add_argument("last", metavar="TO", type=count)
    asked.add_argument("--inside", metavar="COMMAND", help="a built `sdd1_inside`")
    asked = asked.parse_args()
    command, events, bad = words_of(asked.inside, "--inside") if asked.inside else None, 0, 0
    for seed in range(asked.first, asked.last):
        files = run_call(random.Random(seed)).files
        try:
            events += check(files, text_of_program(command, files) if command else None)
        except (Differs, Contradiction) as fault:
            bad += 1
            print("seed %d: %s" % (seed, fault), flush=True)
    print("%d runs, %d events, %d differ" % (asked.last - asked.first, events, bad))
    return 1 if bad else 0


if __name__ == "__main__":
    start(main)
