"""A report is judged part by part: true ones are right, and of the examples with a broken rule the rule is named."""
import os
import random
import unittest

import sdd_path  # noqa: F401
from sdd.bench import random_input
from sdd.reference import breaking
from sdd.reference.report import report_text
from sdd.reference.world import run
from sdd.teach.grade import Grader, read_grader

EXAMPLES = os.path.join(os.path.dirname(os.path.abspath(__file__)), "..", "examples")
NAMED = {
    "all-p1": ("trace", "answered too early: carry has passed nothing at D2, and not yet 63 (P2)"),
    "p2-for-p3": ("trace", "it waits for down 65 (P3)"),
    "no-hold": ("trace", "it is held: a READ of count waits that must not see it"),
    "by-arrival": ("copies", "of each row a copy keeps the change with the greatest timestamp of those that were applied there"),
    "deletion-date": ("copies", "of each row a copy keeps the change with the greatest timestamp of those that were applied there"),
    "early-null": ("trace", "no NULL of up has come there: its attempt with the timestamp 65 is under way, and until it has ended up can't promise 127"),
    "commit-order": ("order", "look comes before raise: look doesn't see what raise changes"),
}


def of_example(*names):
    folder = os.path.join(EXAMPLES, *names)
    with open(os.path.join(folder, "report"), encoding="utf-8") as f:
        return read_grader(os.path.join(folder, "catalogue.toml"), os.path.join(folder, "workload")), f.read()


class Grades(unittest.TestCase):
    def test_true_reports_are_right(self):
        for name in ("bridge", "two_protocols", "held_write", "undeclared", "lost_packet", "rejected_read", "new_kind"):
            grader, text = of_example(name)
            self.assertEqual([], grader.faults(text), name)

    def test_broken_rules_are_named(self):
        for name, (part, why) in NAMED.items():
            grader, text = of_example("broken", name)
            first = grader.faults(text)[0]
            self.assertEqual((part, why), (first.part, first.why), name)

    def test_parts_are_judged_one_by_one(self):
        grader, text = of_example("bridge")
        found = grader.faults(text.replace("row 1 100", "row 1 99").replace("row 1 120", "row 1 121"))
        self.assertEqual(["replies", "copies"], [x.part for x in found])
        self.assertEqual(["row 1 100", "row 1 120"], [x.should for x in found])

    def test_lines_that_are_missing_or_too_many(self):
        grader, text = of_example("bridge")
        lines = text.split("\n")[:-1]
        for k in range(len(lines)):
            for other in (lines[:k] + lines[k + 1:], lines[:k] + [lines[k]] + lines[k:], lines[:k] + ["strange"] + lines[k:]):
                if other != lines:
                    self.assertTrue(grader.faults("\n".join(other) + "\n"), other)
        self.assertTrue(grader.faults(text.rstrip("\n")))

    def test_random_runs(self):
        """Reports of a system with a broken rule: whatever it tells, there is an answer."""
        for seed in range(40):
            rng = random.Random(seed)
            cat, work = random_input.workload(rng)
            work = random_input.schedule(rng, cat, work, 40)
            grader = Grader(cat, work)
            for rule in ("all-p1", "p2-for-p3", "no-hold", "early-null"):
                breaking.break_rule(rule)
                try:
                    text = report_text(run(cat, work))
                except (IndexError, KeyError, StopIteration):
                    continue                # a system with a broken rule may get stuck
                finally:
                    breaking.mend()
                self.assertEqual(text != grader.right, bool(grader.faults(text)), (seed, rule))


if __name__ == "__main__":
    unittest.main()
