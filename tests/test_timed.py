"""Runs with the times of links: what they do is what the reference does, and the times are those of the links."""
import contextlib
import io
import json
import os
import random
import sys
import tempfile
import unittest

import sdd_path  # noqa: F401
from sdd.bench import random_input
from sdd.bench.make_workload import write_workload
from sdd.design import explore
from sdd.design.latencies import percentile
from sdd.design.milliseconds import Design
from sdd.design.times import near_of, read_times
from sdd.model.files import BadInput, write_text
from sdd.model.workload import Event, Site, sites_of
from sdd.reference.report import trace_line
from sdd.reference.world import run

EXAMPLES = os.path.join(os.path.dirname(os.path.abspath(__file__)), "..", "examples")
PLACES = """
link = 20
jitter = 0
[places]
north = ["T1", "D1"]
south = ["T2", "D2"]
[distances]
within = 0.5
north-south = 12
T2-D1 = 15
[service]
D = 0.1
D2 = 0.3
[arrivals]
rate = 50
"""


def drawn_design(seed):
    """A random catalogue and workload, with settles, ticks, downs, ups and further lists between the submissions."""
    rng = random.Random(seed)
    cat, work = random_input.workload(rng, seed % 4 == 0)
    events, lists = [], len(work.lists)
    for n in random_input.some(rng, range(1, len(work.txns) + 1)):
        events.append(Event("submit", n))
        events += [Event("settle")] if rng.random() < 0.1 else []
        events += [Event("tick", a=Site("T", rng.randint(1, cat.tms)), n=rng.randint(1, 5))] if rng.random() < 0.1 else []
        events += [Event(rng.choice(["down", "up"]), a=rng.choice(sites_of(cat)[1:]))] if rng.random() < 0.15 else []
        if lists and rng.random() < 0.2:
            events += [Event("up", a=site) for site in sites_of(cat)[1:]] + [Event("redeclare")]
            lists -= 1
    return rng, Design("", "", cat, work._replace(events=events))


def drawn_distances(rng, cat, loss=None, resend=None):
    sites = ["T%d" % (k + 1) for k in range(cat.tms)], ["D%d" % (k + 1) for k in range(cat.dms)]
    near = [("%s-%s" % (t, d), rng.choice([0, 0.2, 5, 20])) for t in sites[0] for d in sites[1]]
    service = [(x, rng.choice([0, 0.5, 3])) for part in sites for x in part] if rng.random() < 0.5 else []
    return read_times(None, 20, near, service, rng.choice([0, 10, 50]), rng.choice([1, 10, 100]), loss, resend)


def event_of(line, numbers):
    word, *rest = line.split(" ")
    if word == "submit":
        return Event(word, numbers[rest[0]])
    sites = [Site(x[0], int(x[1:] or 0)) for x in rest if x[0] in "UTD"]
    count = int(rest[-1]) if rest and rest[-1].isdigit() else 0
    return Event(word, 0, *sites, **({"b": None} if len(sites) == 0 else {}), n=count)


class Runs(unittest.TestCase):
    def is_of_reference(self, design, timed, seed):
        events = [event_of(x, design.work.numbers()) for x in timed.schedule] + [Event("settle")]
        world = run(design.cat, design.work._replace(events=events))
        self.assertEqual([trace_line(world, x) for x in world.records], timed.trace, seed)

    def test_random_runs_are_those_of_the_reference(self):
        for seed in range(150):
            rng, design = drawn_design(seed)
            self.is_of_reference(design, design.run(drawn_distances(rng, design.cat), seed, is_traced=True), seed)

    def test_random_runs_with_losses_are_those_of_the_reference(self):
        words = set()
        for seed in range(100):
            rng, design = drawn_design(seed)
            distances = drawn_distances(rng, design.cat, rng.choice([1, 10, 40]), rng.choice([1, 50, 500]))
            timed = design.run(distances, seed, is_traced=True)
            self.is_of_reference(design, timed, seed)
            words |= {x.split(" ")[0] for x in timed.schedule}
        self.assertLessEqual({"lose", "resend", "deliver", "submit", "redeclare", "down"}, words)

    def test_a_trace_changes_no_times(self):
        """Acknowledgements hold nothing up where nothing is lost, so that runs without them have the same times."""
        for seed in range(60):
            rng, design = drawn_design(seed)
            distances = drawn_distances(rng, design.cat, rng.choice([0, 0, 20]))
            both = [design.run(distances, seed, x) for x in (False, True)]
            told = [[(n, x.submitted, x.started, x.committed, x.waits) for n, x in y.told.items()] for y in both]
            self.assertEqual(*told, seed)
            self.assertEqual(both[0].packets(), both[1].packets(), seed)

    def test_a_packet_is_lost_and_sent_again(self):
        """A lost packet costs the time until it is sent again, with all behind it; the write at T1 commits at once."""
        design = Design.of_files(*(os.path.join(EXAMPLES, "bridge", x) for x in ("catalogue.toml", "workload")))
        took = set()
        for seed in range(60):
            timed = design.run(read_times(None, 20, [near_of("T2-D1=3")], [], 0, 10, 20, 100), seed, is_traced=True)
            took.add(round(timed.told[2].committed - timed.told[2].submitted, 6))
            self.assertAlmostEqual(timed.told[1].committed, timed.told[1].submitted)
        self.assertIn(12, took)
        self.assertIn(112, took)
        self.assertEqual(12, min(took))

    def test_times_by_hand(self):
        """A READ, READY, SHIP and ROWS between T2 and D1; a write at T1 commits at once."""
        design = Design.of_files(*(os.path.join(EXAMPLES, "bridge", x) for x in ("catalogue.toml", "workload")))
        timed = design.run(read_times(None, 20, [near_of("T2-D1=3")], [], 0, 10), "1")
        raised, looked = timed.told[1], timed.told[2]
        self.assertAlmostEqual(0, raised.committed - raised.submitted)
        self.assertAlmostEqual(12, looked.committed - looked.submitted)
        timed = design.run(read_times(None, 20, [near_of("T2-D1=3")], [("D1", 1), ("T2", 0.5)], 0, 100), "1")
        looked = timed.told[2]
        self.assertAlmostEqual(12 + 2 * 1 + 2 * 0.5, looked.committed - looked.submitted)


class Times(unittest.TestCase):
    def setUp(self):
        self.room = tempfile.TemporaryDirectory()
        self.path = os.path.join(self.room.name, "times.toml")

    def tearDown(self):
        self.room.cleanup()

    def test_places(self):
        write_text(self.path, PLACES)
        found = read_times(self.path)
        between = {pair: found.between(*pair) for pair in (("T1", "D1"), ("T1", "D2"), ("D1", "T2"), ("T3", "D1"), ("U", "D1"))}
        self.assertEqual([0.5, 12, 15, 20, 20], list(between.values()))
        self.assertEqual((20, 0, 20), (found.link, found.jitter, found.every))
        self.assertEqual({"D": 0.1, "D2": 0.3}, found.service)
        self.assertEqual(7, read_times(self.path, near=[("T1-D2", 7)]).between("D2", "T1"))

    def test_refusals(self):
        for before, after, what in (
                ("north-south", "north-west", "names no two sites"), ("T2-D1", "T2-D17", "names no two sites"), ("rate = 50", "rate = 0", "isn't between"),
                ("link = 20", "lnk = 20", "has no part lnk"), ('"T2", "D2"', '"T2", "D1"', "stands in north and in south"), ("D2 = 0.3", "E = 1", "E is no site"),
                ("within = 0.5", 'within = "far"', "is no number"), ("rate = 50", "rate = 50\nevery = 1", "one of them"), ("jitter = 0", "loss = 51", "isn't between 0 and 50"),
                ("jitter = 0", "resend = 0", "isn't between 1 and"), ("jitter = 0", "jitter =", "not TOML")):
            self.assertIn(before, PLACES)
            write_text(self.path, PLACES.replace(before, after))
            with self.assertRaisesRegex(BadInput, what):
                read_times(self.path)

    def test_percentiles(self):
        values = list(range(100, 0, -1))
        self.assertEqual([50, 95, 99, 100], [percentile(values, x) for x in (50, 95, 99, 100)])
        self.assertEqual([None, 7], [percentile([], 50), percentile([7], 99)])


class Explores(unittest.TestCase):
    def call(self, *words):
        before, sys.argv = sys.argv, ["sdd explore", *words]
        told = io.StringIO()
        try:
            with contextlib.redirect_stdout(told), contextlib.redirect_stderr(io.StringIO()):
                explore.main()
        finally:
            sys.argv = before
        return told.getvalue()

    def test_two_designs(self):
        """Rounds say that one class a branch is better; with 20 ms between the sites it isn't."""
        with tempfile.TemporaryDirectory() as folder:
            files = [x for design in ("first", "apart") for x in write_workload(os.path.join(folder, design), "smallbank", 20, design=design)]
            picture, worst = os.path.join(folder, "x.svg"), os.path.join(folder, "worst")
            near = ["--link", "20", "--near", "T1-D1=0.2", "--near", "T2-D2=0.2", "--runs", "10"]
            told = self.call(*files, *near, "--picture", picture, "--worst", worst)
            self.assertIn("the same events in the same order", told)
            self.assertIn("2  No read waits.", told)
            self.assertTrue(os.path.getsize(picture) > 2000 and os.path.getsize(worst) > 1000)
            first, apart = json.loads(self.call(*files, *near, "--json", "--check", "0"))["designs"]
            self.assertEqual((0, {"P1": 2, "P2": 0, "P3": 0}), (apart["kind"]["all"]["waits"], apart["protocols"]))
            self.assertTrue(apart["kind"]["all"]["to_commit_p95"] < 2 < 100 < first["kind"]["all"]["to_commit_p50"])
            self.assertEqual(1 + 7 + 8, len(self.call(*files, *near, "--csv", "--check", "0").splitlines()))

    def test_losses(self):
        """Losses make a run slower, and each drawn run is one that the program carries out."""
        files = [os.path.join(EXAMPLES, "smallbank", x) for x in ("catalogue.toml", "workload")]
        slow = []
        for loss in "0", "5":
            told = json.loads(self.call(*files, "--link", "20", "--every", "100", "--runs", "4", "--check", "1", "--loss", loss, "--program", "reference", "--json"))
            design = told["designs"][0]
            slow.append((design["kind" if "kind" in design else "class"]["all"]["to_commit_p99"], design["packets_per_commit"]))
            self.assertEqual(1, design["checked"])
        self.assertTrue(slow[0] < slow[1], slow)

    def test_refusals(self):
        files = [os.path.join(EXAMPLES, "bridge", x) for x in ("catalogue.toml", "workload")]
        for words, what in ((["--every", "5"], "times of links"), (["--loss", "5"], "times of links"), (["--link", "5", "--loss", "60"], "isn't between"), (["--link", "5", "--pace", "3"], "for rounds"), (["--link", "5", "--json", "--csv"], "one of them"),
                            (["--near", "T9-D1=1"], "speak of T9"), (["--near", "T1-T1-D1=3"], "no two sites")):
            with self.assertRaisesRegex(BadInput, what):
                self.call(*files, *words)


if __name__ == "__main__":
    unittest.main()
