"""A module that is down takes part in nothing, and loses nothing: what the reference does where a transaction module is down."""
import json
import os
import random
import shutil
import subprocess
import sys
import tempfile
import unittest

import sdd_path  # noqa: F401
from sdd.bench import random_input
from sdd.model.files import write_text
from sdd.model.reading import catalogue_at
from sdd.model.words import Fault
from sdd.model.workload import Event, Site, U, read_workload
from sdd.reference.ask import needs_of
from sdd.reference.inside import inside_text
from sdd.reference.links import Ack
from sdd.reference.plain import class_for
from sdd.reference.report import report_text, trace_line
from sdd.reference.world import World, run
from sdd.view import network
from sdd.view.game import EVENT
from sdd.view.page import part
from sdd.view.states import read_text

TOP = os.path.join(os.path.dirname(os.path.abspath(__file__)), "..")
OWN, MUTUAL = (os.path.join(TOP, "crates", "sdd1", "data", x) for x in ("own.toml", "mutual_reads.toml"))
TRANSACTIONS = """txn x T1
query 1.val from item where 1.id <= 9
put item 11 1
done
txn y T2
query 1.val from item where 1.id >= 10
put item 1 1
done
txn z T1
put item 12 2
done
txn all T2
query 1.val from item
done
"""


def world_of(path, text):
    cat = catalogue_at(path)
    return run(cat, read_workload(cat, text.encode()))


def trace(world, *events):
    """The records of these events."""
    return [trace_line(world, x) for x in world.records if x.event in events]


def mutual(*events):
    return world_of(MUTUAL, TRANSACTIONS + "".join(x + "\n" for x in events) + "end\n")


class Down(unittest.TestCase):
    def test_what_is_submitted_queues_and_starts_once_it_is_up(self):
        world = mutual("down T1", "submit z", "submit y", "settle")
        self.assertEqual(trace(world, 2), ["2 submit z"])
        text = report_text(world)
        self.assertIn("pending z queued p 1\n", text)
        self.assertIn("pending y waits D1 p 66\n", text)
        world = mutual("down T1", "submit x", "submit z", "up T1", "settle")
        self.assertEqual(trace(world, 4), ["4 start x#1 p 65 63"])
        self.assertNotIn("pending", report_text(world))
        self.assertIn("order x z\n", report_text(world))

    def test_those_behind_the_one_that_is_served_are_counted_without_it(self):
        """An attempt is under way when its module goes down: it stays so, and the next one is the first that waits."""
        text = report_text(mutual("submit x", "down T1", "submit z", "settle"))
        self.assertIn("pending x underway D1\npending z queued p 1\n", text)

    def test_messages_are_kept_and_handed_over_lowest_sender_first(self):
        """U's HOLD comes before D1's READY, though D1's was delivered first; both were acknowledged before."""
        world = mutual("submit x", "deliver T1 D1 1", "down T1", "deliver D1 T2 1", "deliver T2 D1 1", "deliver T2 D1 1",
                       "deliver D1 T1 1", "deliver D1 T1 1", "submit all", "deliver U T1 1", "deliver U T2 1")
        ways = world.links.ways
        self.assertEqual([(ways[x, Site("T", 1)].delivered, world.handed[x, Site("T", 1)]) for x in (U, Site("D", 1))], [(1, 0), (1, 0)])
        self.assertEqual(ways[Site("T", 1), U].flight, [Ack(1)])
        module = world.sites[Site("T", 1)]
        handed, module.handed = [], lambda site, message: handed.append((str(site), message.kind))
        world.carry_out(Event("up", a=Site("T", 1)), 0, 0)
        self.assertEqual(handed, [("U", "HOLD"), ("D1", "READY")])

    def test_it_starts_before_it_is_handed_a_hold(self):
        """So z, which was submitted while T1 was down, is in the serial order before the undeclared transaction."""
        world = mutual("down T1", "submit all", "deliver U T1 1", "submit z", "up T1", "settle")
        self.assertEqual(trace(world, 5), ["5 start z#1 p 65 63", "5 commit z#1"])
        self.assertIn("order z all\n", report_text(world))

    def test_its_clock_goes_on_with_ticks(self):
        world = mutual("down T1", "tick T1 4", "submit z", "up T1")
        self.assertEqual(trace(world, 4), ["4 start z#1 p %d %d" % (5 * 64 + 1, 4 * 64 + 63), "4 commit z#1"])

    def test_a_turn_that_changes_nothing_is_noted(self):
        world = mutual("up T1", "down T1", "down T1", "submit z", "down T2", "up T2", "up T1", "up T1")
        self.assertEqual(trace(world, 1, 3, 8), ["1 nothing", "3 nothing", "8 nothing"])
        self.assertEqual(trace(world, 2, 5, 6), [])

    def test_what_inside_tells(self):
        cat = catalogue_at(MUTUAL)
        work = read_workload(cat, (TRANSACTIONS + "down T1\ntick T1 2\nsubmit z\nup T1\ndown T2\nend\n").encode())
        _, lines = read_text(inside_text(cat, work))
        sites = [line.get("sites") for line in lines]
        self.assertEqual(sites[:3], [[{"at": "T1", "down": True, "clock": clock}] for clock in (0, 2, 2)])
        self.assertEqual(sites[3:], [[{"at": "T1", "clock": 3}], [{"at": "T2", "down": True, "clock": 0}]])
        self.assertEqual([list(x[0])[:2] for x in sites[:3]], [["at", "down"]] * 3)
        self.assertEqual([line.get("queues") for line in lines[2:4]], [[{"class": "p", "in": ["z"]}], [{"class": "p", "out": 1}]])
        self.assertEqual([(x.event, x.kind, x.site) for x in network.marks_of(*read_text(inside_text(cat, work)))],
                         [(1, "down", "T1"), (4, "up", "T1"), (5, "down", "T2")])


class Refused(unittest.TestCase):
    def fault(self, text):
        with self.assertRaises(Fault) as caught:
            read_workload(catalogue_at(OWN), text.encode())
        return str(caught.exception)

    def test_a_redeclare_while_a_transaction_module_is_down(self):
        lists = "txn p T1\nput acct 5 10\ndone\nlist\ndone\ndown T1\nsubmit p\n"
        self.assertIn("line 8: BadEvent", self.fault(lists + "redeclare\nend\n"))
        world = world_of(OWN, lists + "up T1\nredeclare\nend\n")
        self.assertIn("order p\n", report_text(world))

    def test_the_site_of_users_never_goes_down(self):
        for word in "down U", "up U":
            self.assertIn("line 1: BadEvent", self.fault(word + "\nend\n"))
        for word in "down T2", "up T17", "down T01", 'down "T1"':
            self.assertIn("line 1: BadEvent", self.fault(word + "\nend\n"))

    def test_a_page_may_ask_for_it(self):
        for line, is_event in (("down T1", True), ("up T16", True), ("down D1", True), ("down U", False), ("down T17", False), ("down T0", False)):
            self.assertEqual(bool(EVENT.fullmatch(line)), is_event, line)


class Random(unittest.TestCase):
    def test_what_is_pending_hangs_on_a_module_that_is_down(self):
        """After a settle, in drawn runs: a declared transaction is committed unless its class needs a module that is down,
        or an undeclared one isn't done."""
        hung = 0
        for seed in range(120):
            rng = random.Random(seed)
            cat, work = random_input.workload(rng)
            work = random_input.schedule(rng, cat, work, rng.choice([20, 60, 120]))
            world = run(cat, work._replace(events=work.events + [Event("settle")]))
            committed = {x.txn for x in world.records if x.kind == "commit"}
            applied = {(x.txn, x.dm) for x in world.records if x.kind == "apply"}
            undone = [n for n, home in world.homes.items() if home == U and not (
                n in committed and all((n, dm) in applied for dm in range(1, cat.dms + 1)))]
            attempt, _ = needs_of(cat)
            for n in set(world.homes) - committed - set(undone):
                needed = attempt[class_for(cat, work.txns[n - 1])] & {tuple(site) for site in world.down}
                hung += any(kind == "T" for kind, _ in needed)
                self.assertTrue(needed or undone, (seed, n))
            self.assertTrue(world.down or not undone, seed)
        self.assertGreater(hung, 50)

    def test_nothing_happens_at_a_module_that_is_down(self):
        for seed in range(60):
            rng = random.Random(seed)
            cat, work = random_input.scheduled(rng, seed % 3 == 0)
            world = World(cat, work)
            for _ in world.happens():
                self.assertEqual({site for site, _, _ in world.put} & world.down, set(), (seed, world.events))
                for link, way in world.links.ways.items():
                    self.assertTrue(link[1] in world.down or world.handed[link] == way.delivered, (seed, world.events))


SHOWN = """
const fs = require("fs"), vm = require("vm"), parts = JSON.parse(fs.readFileSync(0));
class Node {
  constructor(tag) { Object.assign(this, {tag, className: "", children: [], own: ""}); this.classList = {add: x => { this.className += " " + x; }}; }
  append(...more) { this.children.push(...more); }
  set textContent(text) { this.own = text; }
  get textContent() { return this.own + this.children.map(x => x.textContent ?? x).join(" "); }
}
const made = vm.createContext({document: {createElement: tag => new Node(tag)}});
vm.runInContext(parts.join("\\n") + "\\nObject.assign(this, {siteMarks: transactionModule, sayEvent, saySites, element});", made);
const shown = (site, reported) => {
  const play = {downButton: (at, isDown) => made.element("button", "", (isDown ? "up " : "down ") + at), tickControl: () => made.element("i")};
  const run = {tms: ["T1"], dms: [], classes: [], classesOf: () => []};
  const [card, head] = [new Node("div"), new Node("h2")];
  made.siteMarks({play, run, opened: new Set(), state: {site: () => reported, queue: () => [], list: 0}}, site, card, head, new Node("div"));
  return [head.textContent, card.className.trim()];
};
const said = line => {
  const texts = [], say = (_, text) => texts.push(text);
  made.sayEvent({}, line, say);
  made.saySites(line, say);
  return texts;
};
console.log(JSON.stringify([shown("T1", {clock: 2, down: true}), shown("T1", {clock: 2}), shown("U", {clock: 2, phase: "idle"}),
  said({do: "up T1"}), said({do: "up D1"}), said({do: "submit z", sites: [{at: "T1", down: true, clock: 2}]})]));
"""


class Pictures(unittest.TestCase):
    @unittest.skipUnless(shutil.which("node"), "there is no node here")
    def test_a_card_of_the_page_has_the_mark_and_the_button(self):
        text = json.dumps([part(x) for x in ("dom.js", "names.js", "hanging.js", "words.js", "cards.js")])
        shown = json.loads(subprocess.run([shutil.which("node"), "-e", SHOWN], input=text, capture_output=True, text=True, check=True).stdout)
        self.assertEqual(shown[0], ["transaction module DOWN up T1", "down"])
        self.assertEqual(shown[1], ["transaction module down T1", ""])
        self.assertEqual(shown[2], ["undeclared transactions", ""])
        self.assertEqual(shown[3], ["T1 comes up, starts what can start, and is handed what was kept for it."])
        self.assertEqual(shown[4], ["D1 comes up, and is handed what was kept for it."])
        self.assertEqual(shown[5], ["T1 is down: it starts nothing before it is up."])

    def test_it_is_drawn_in_the_lanes_of_its_classes(self):
        with tempfile.TemporaryDirectory(prefix="down-") as folder:
            paths = [os.path.join(folder, x) for x in ("workload", "report")]
            text = TRANSACTIONS + "down T1\nsubmit z\nup T1\nsubmit y\nsettle\nend\n"
            write_text(paths[0], text)
            write_text(paths[1], report_text(world_of(MUTUAL, text)))
            words = [sys.executable, os.path.join(TOP, "sdd"), "picture", paths[1], MUTUAL, paths[0], "--program", "reference"]
            drawn = subprocess.run(words, capture_output=True, text=True, check=True).stdout
        self.assertEqual(drawn.count("1 down T1\n3 up T1"), 1)
        self.assertIn("the module is down", drawn)


if __name__ == "__main__":
    unittest.main()
