"""What `find_tactics.py` reads and writes: the names in a checked module, goals without an answer, files of answers."""
import os
import tempfile
import unittest

import sdd_path  # noqa: F401
from find_tactics import command, declared_in, fault_of, goal_at, goals_without_answer, remove_empty, with_answers
from link_program import Refused

ANSWERS = """use Rattle.demo.proofs.All.{arith, refl}
use Rattle.demo.proofs.at.find.Goals as goal

pub returns-clause-some : goal.returns-clause-some
returns-clause-some c = refl
"""


def spelled(name):
    """A name after its length, as checked modules have it."""
    size = len(name)
    return (bytes([size]) if size < 128 else bytes([size & 127 | 128, size >> 7])) + name.encode()


class Names(unittest.TestCase):
    def test_names_end_by_their_length(self):
        module = "Rattle-demo-proofs.at.find.Proof"
        data = b"\x00" + spelled(module + ".returns") + b"B" + spelled(module + ".loop-init") + spelled("Rattle-demo-proofs.at.other.Proof.returns-2")
        self.assertEqual(declared_in(data, module), {"returns", "loop-init"})

    def test_a_long_name_has_a_length_of_two_bytes(self):
        module = "Rattle-demo-proofs." + "long_name." * 12 + "Proof"
        self.assertEqual(declared_in(spelled(module + ".overflow_add-end") + b"B", module), {"overflow_add-end"})


class Goals(unittest.TestCase):
    def test_answered_goals_lifetimes_and_wholes_are_left_out(self):
        names = {
            "returns", "returns-clause-some", "returns-clause-none", "loop-init", "push-requires", "lives-push-requires",
            "drop-items-requires", "find_spec", "T1", "overflow_add-end",
        }
        self.assertEqual(goals_without_answer(names, ANSWERS), ["loop-init", "overflow_add-end", "returns-clause-none"])

    def test_an_answer_of_the_whole_stands_for_its_parts(self):
        self.assertEqual(goals_without_answer({"returns", "returns-clause-a"}, "pub returns : goal.returns"), [])


class Refusals(unittest.TestCase):
    def test_a_missing_library_is_named(self):
        with tempfile.TemporaryDirectory() as folder, self.assertRaisesRegex(Refused, "sdd_base.rlib is missing"):
            command("sdd_items", folder, os.path.join(folder, "links"))

    def test_the_first_error_is_the_fault(self):
        self.assertEqual(fault_of("fn demo::f: proved\n./proofs/f/Answers.antt:3:1: error: no\nlogic=not-proved\n"), "./proofs/f/Answers.antt:3:1: error: no")
        self.assertEqual(fault_of("so far: 3 of 5\nkilled\n\n"), "killed")
        self.assertEqual(fault_of(""), "it says nothing")


class Files(unittest.TestCase):
    def test_empty_folders_go_and_others_stay(self):
        with tempfile.TemporaryDirectory() as folder:
            os.makedirs(os.path.join(folder, "kept", "at", "find"))
            open(os.path.join(folder, "kept", "All.antt"), "w", encoding="utf-8").close()
            remove_empty(os.path.join(folder, "kept", "at", "find"))
            self.assertEqual(os.listdir(os.path.join(folder, "kept")), ["All.antt"])

    def test_without_tactics_the_text_stays(self):
        self.assertEqual(with_answers("demo", "at::find", ANSWERS, {}, "c"), ANSWERS)

    def test_names_that_are_there_are_not_imported_again(self):
        text = with_answers("demo", "at::find", ANSWERS, {"loop-init": "grind (arith, elements)"}, "c")
        self.assertTrue(text.startswith("use Rattle.std.proofs.lemmas.Grind.{elements}\nuse Rattle.demo.proofs.All.{arith, refl}\n"))
        self.assertTrue(text.endswith("\n\npub loop-init : goal.loop-init\nloop-init c = grind (arith, elements)\n"))

    def test_a_new_file_names_the_goals(self):
        text = with_answers("demo", "at::Table::find", "", {"returns": "omega arith"}, "g c")
        self.assertEqual(text, (
            "use Rattle.std.proofs.Common.{arith}\nuse Rattle.demo.proofs.at.Table.find.Goals as goal\n\n"
            "pub returns : goal.returns\nreturns g c = omega arith\n"
        ))

    def test_the_goal_of_a_line(self):
        text = with_answers("demo", "at::find", ANSWERS, {"loop-init": "omega arith"}, "c")
        self.assertEqual([goal_at(text, line) for line in (1, 4, 5, 7, 8)], [None, "returns-clause-some", "returns-clause-some", "loop-init", "loop-init"])


if __name__ == "__main__":
    unittest.main()
