"""On which modules that are down a class may hang: what `sdd needs` says, with the way there, in `explore` and on the page."""
import json
import os
import random
import shutil
import subprocess
import tempfile
import unittest

import sdd_path  # noqa: F401
from sdd.bench.random_input import busy_catalogue, catalogue
from sdd.design.hanging import Hanging, collect_pending, down_after
from sdd.design.observed import observe
from sdd.model.files import write_text
from sdd.model.reading import catalogue_at, workload_at
from sdd.model.workload import sites_of
from sdd.reference.ask import needs_of
from sdd.reference.commands import answer, read_file
from sdd.reference.graph import table_text
from sdd.view.page import part

HELD_BACK = os.path.join(os.path.dirname(os.path.abspath(__file__)), "..", "tools/cases/catalogues/held_back.toml")
WORK = """txn o T2
query 1.value from item where 1.id >= 50
done
txn u T1
query 1.id from item
done
txn w T1
put item 1 1
done
down D2
submit o
settle
submit u
settle
submit w
settle
end
"""
SHOWN = """
const fs = require("fs"), vm = require("vm"), [parts, given] = JSON.parse(fs.readFileSync(0)), made = vm.createContext({});
vm.runInContext(parts.join("\\n") + "\\nthis.waysTo = waysTo;", made);
console.log(JSON.stringify(given.map(x => x.classes.map(one => Object.fromEntries(made.waysTo({classes: x.classes.map(c => c.name), data: x}, one.name, x.modules))))));
"""


def drawn(seeds):
    for seed in seeds:
        rng = random.Random(seed)
        yield busy_catalogue(rng) if seed % 2 else catalogue(rng)


def ways_of(cat):
    return [Hanging(cat).ways(x.name, modules_of(cat)) for x in cat.classes]


def modules_of(cat):
    return [str(site) for site in sites_of(cat)[1:]]


class Hangs(unittest.TestCase):
    def test_a_class_hangs_on_the_modules_that_it_needs(self):
        for cat in drawn(range(200)):
            attempt, _ = needs_of(cat)
            needed = [{"%s%d" % site for site in attempt[c]} for c in range(1, len(cat.classes) + 1)]
            self.assertEqual([set(x) for x in ways_of(cat)], needed)

    def test_a_way_two_classes_long(self):
        hanging = Hanging(catalogue_at(HELD_BACK))
        self.assertEqual(hanging.ways("reader", ["D2"]), {
            "D2": "reader waits for writer; both waits for other, and may hold back what writer writes; other reads at D2"})
        self.assertEqual(hanging.ways("reader", ["T2", "T4"]), {
            "T2": "reader waits for writer; both waits for other, and may hold back what writer writes; other is at home at T2",
            "T4": "reader is at home at T4"})
        self.assertEqual(hanging.ways("other", ["D1", "T1"]), {})
        self.assertEqual(hanging.ways("-", ["T1", "D1"]), {
            "T1": "T1 has to hold for an undeclared transaction", "D1": "an undeclared transaction reads at D1"})

    def test_which_modules_are_down(self):
        self.assertEqual(down_after(["down D2", "submit a", "down T2", "down D1", "up D2", "down D10", "down T1", "up T2"]), ["T1", "D1", "D10"])

    def test_what_is_pending_and_why(self):
        cat = catalogue_at(HELD_BACK)
        for down in "D2", "T2":
            text = WORK.replace("D2", down)
            with tempfile.TemporaryDirectory(prefix="hanging-") as folder:
                path = os.path.join(folder, "workload")
                write_text(path, text)
                work, (_, _, report) = workload_at(path, cat), answer(["run", HELD_BACK, path], read_file)
            run = observe(report)
            self.assertEqual(run.pending, ("o", "u", "w"))
            found = collect_pending(cat, work, text.split("\n"), [run], lambda name, cls: cls)
            self.assertEqual([(x.who, x.count, sorted(x.ways)) for x in found], [("other", 1, [down]), ("-", 1, [down]), ("writer", 1, [down])])
            self.assertEqual(collect_pending(cat, work, [], [run], lambda name, cls: cls), [])

    @unittest.skipUnless(shutil.which("node"), "there is no node here")
    def test_the_page_finds_the_same(self):
        cats = list(drawn(range(60)))
        given = [{"table": table_text(cat).split("\n")[:-1], "modules": modules_of(cat),
                  "classes": [{"name": x.name, "at": x.site, "reads": ["D%d" % dm for dm in sorted({dm for _, dm in x.reads})]} for x in cat.classes]} for cat in cats]
        text = json.dumps([[part("graph.js").split("// The READ that")[0], part("hanging.js")], given])
        shown = json.loads(subprocess.run([shutil.which("node"), "-e", SHOWN], input=text, capture_output=True, text=True, check=True).stdout)
        self.assertEqual(shown, [ways_of(cat) for cat in cats])


if __name__ == "__main__":
    unittest.main()
