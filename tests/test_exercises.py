"""Each exercise: its solution is right, and what it begins with isn't; the files of examples/ are those of the repository."""
import os
import unittest

import sdd_path  # noqa: F401
from sdd.teach.exercises import EXERCISES, judge_text, start_of, start_text
from sdd.teach.grade import Grader

ROOT = os.path.join(os.path.dirname(os.path.abspath(__file__)), "..")
EVENTS = {
    1: "submit down;submit up;submit tally;settle",
    2: "submit sell;submit close;deliver T2 D1 1;deliver T1 D1 1;settle",
    3: "submit raise;submit look;deliver T1 D1 1;deliver T2 D1 1;settle",
    4: "submit one;submit two;submit three;" + "lose T1 D1 1;" * 3 + "resend T1 D1;" + "lose T1 D1 1;" * 3 + "settle;submit view;settle",
    5: "submit sell;submit close;deliver T2 D1 1;deliver T1 D1 1;deliver D1 T1 2;lose T1 D1 2;settle",
    6: "down D1;submit one;submit two;submit three;submit view;" + "deliver T1 D1 1;" * 3 + "deliver T2 D1 1;up D1;settle",
    7: "tick T1 5;submit down;submit up;submit tally;settle",
    8: "tick T1 2;submit show;deliver T1 D1 1;deliver D1 T3 1;submit cold;deliver T3 D1 2;deliver D1 T2 1;deliver T2 D1 2;settle",
    9: "submit buy;submit audit;submit late;settle",
    11: "submit counted;deliver T3 D2 1;deliver T3 D1 1;deliver D2 T1 1;submit carried;submit filled;settle",
}
NOT_YET = {
    2: "submit sell;submit close;settle", 3: "submit raise;submit look;deliver T2 D1 1;settle", 5: EVENTS[2],
    4: "submit one;submit two;submit three;" + "lose T1 D1 1;resend T1 D1;" * 2 + "settle;submit view;settle",
    6: "submit one;down D1;submit two;submit three;submit view;up D1;settle", 7: EVENTS[1], 8: "tick T1 2;submit show;submit cold;deliver T1 D1 1;settle",
    9: "submit buy;submit audit;settle;submit late;settle", 11: "submit counted;submit carried;submit filled;settle"}
HALVES = """
tms = 3
dms = 2
[[relation]]
name = "seat"
columns = [{name = "number", kind = "int"}, {name = "sold", kind = "int"}]
key = "number"
[[relation]]
name = "till"
columns = [{name = "house", kind = "int"}, {name = "cents", kind = "int"}]
key = "house"
"""


def cut(name, relation, house, bound):
    return '[[fragment]]\nname = "%s_%d"\nrelation = "%s"\n%s\ncopies = [%d]\n' % (name, house, relation, bound, house)


def nobody_waits():
    parts = [HALVES]
    for house, bound in ((1, "to = 999"), (2, "from = 1000")):
        parts += [cut("seats", "seat", house, bound), cut("tills", "till", house, bound)]
    for house in (1, 2):
        parts.append('[[class]]\nname = "look_%d"\ntm = %d\nreads = [{fragment = "seats_%d", at = %d}]\n' % ((house,) * 4))
        parts.append('[[class]]\nname = "sell_%d"\ntm = %d\nreads = [{fragment = "seats_%d", at = %d}, {fragment = "tills_%d", at = %d}]\n'
                     'writes = ["seats_%d", "tills_%d"]\n' % ((house,) * 8))
    parts.append('[[class]]\nname = "count"\ntm = 3\nreads = [{fragment = "tills_1", at = 1}, {fragment = "tills_2", at = 2}]\n')
    return "".join(parts)


def handed_in(number, events):
    head = start_text(EXERCISES[number - 1].workload).removesuffix("end\n")
    return head + events.replace(";", "\n").rstrip("\n") + "\nend\n"


class Exercises(unittest.TestCase):
    def judge(self, number, text):
        return judge_text(EXERCISES[number - 1], text)

    def test_solutions_are_right(self):
        for number, events in EVENTS.items():
            self.assertEqual([], self.judge(number, handed_in(number, events)), number)
            self.assertEqual([], self.judge(number, handed_in(number, events).replace("\n", "\r\n")), number)

    def test_what_misses_the_point_is_not_yet_right(self):
        for number, exercise in enumerate(EXERCISES, 1):
            self.assertNotEqual([], self.judge(number, start_text(exercise.workload)), number)
        for number, events in NOT_YET.items():
            self.assertNotEqual([], self.judge(number, handed_in(number, events)), number)

    def test_other_transactions_are_refused(self):
        changed = handed_in(3, EVENTS[3]).replace("put price 1 120", "put price 1 121")
        self.assertIn("rows and transactions", self.judge(3, changed)[0])

    def test_a_line_at_fault_is_named(self):
        self.assertIn("line 8: UnknownName", self.judge(3, handed_in(3, "submit nobody"))[0])

    def test_a_report_by_hand(self):
        right = Grader(*start_of(EXERCISES[9])).right
        self.assertEqual([], self.judge(10, right))
        self.assertIn("trace, line 4", self.judge(10, right.replace("2 wait down#1 D1", "2 answer down#1 D1"))[0])

    def test_nobody_waits(self):
        self.assertEqual([], self.judge(12, nobody_waits()))
        self.assertIn("P2 or P3", self.judge(12, start_text("tickets.toml"))[0])
        self.assertIn("has a class", self.judge(12, nobody_waits().replace('"count"\ntm = 3', '"count"\ntm = 1'))[0])

    def test_the_files_are_those_of_the_examples(self):
        for name in ("bridge", "two_protocols", "held_write", "undeclared", "lost_packet", "rejected_read"):
            with open(os.path.join(ROOT, "examples", name, "catalogue.toml"), encoding="utf-8") as f:
                self.assertEqual(f.read(), start_text(name + ".toml"), name)
            with open(os.path.join(ROOT, "examples", name, "workload"), encoding="utf-8") as f:
                self.assertTrue(f.read().startswith(start_text(name + ".work").removesuffix("end\n")), name)


if __name__ == "__main__":
    unittest.main()
