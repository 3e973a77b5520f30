"""What tools/check_imports.py says of a small repository with one fault of each kind."""
import os
import sys
import tempfile
import unittest

import sdd_path  # noqa: F401
from sdd.programs import ROOT

sys.path.insert(0, os.path.join(ROOT, "tools"))
import check_imports  # noqa: E402

FILES = {
    "crates.txt": "sdd_low:\nsdd_high: sdd_low\nsdd_beside:\n",
    "crates/sdd_low/specs/Lib.antt": "pub mod Words\n",
    "crates/sdd_low/specs/Words.antt": "pub word : Type 0\n",
    "crates/sdd_low/specs/Steps.antt": "pub step : Type 0\n",
    "crates/sdd_high/proofs/One.antt": "use Rattle.sdd_low.specs.Words.{word, sentence}\nuse Rattle.sdd_high.proofs.Two.{two}\none : Type 0\n",
    "crates/sdd_high/proofs/Two.antt": "use Rattle.sdd_high.proofs.One.{one}\ntwo : Type 0\n",
    "crates/sdd_high/proofs/g/Answers.antt": "use Rattle.sdd_high.proofs.f.Goals as goal\nuse Rattle.sdd_low.specs.Steps.{step, leap}\n",
    "crates/sdd_high/proofs/f/Answers.antt": "use Rattle.sdd_beside.specs.Words.{}\npub requires-clause-old : goal.requires-clause-new\n",
}
WRONG = [
    "crates/sdd_high/proofs/One.antt: sdd_low.specs.Words has no sentence",
    "crates/sdd_high/proofs/Two.antt: takes names from crates/sdd_high/proofs/One.antt, which takes names from it",
    "crates/sdd_high/proofs/f/Answers.antt: crates.txt has no sdd_beside in the line of sdd_high",
    "crates/sdd_high/proofs/f/Answers.antt: requires-clause-old answers the goal requires-clause-new",
    "crates/sdd_high/proofs/f/Answers.antt: there is no sdd_beside.specs.Words",
    "crates/sdd_high/proofs/g/Answers.antt: answers goals of sdd_high.proofs.f",
    "crates/sdd_high/proofs/g/Answers.antt: sdd_low.specs.Steps has no leap",
]


class Imports(unittest.TestCase):
    def test_one_fault_of_each_kind(self):
        with tempfile.TemporaryDirectory() as root:
            for name, text in FILES.items():
                os.makedirs(os.path.dirname(os.path.join(root, name)), exist_ok=True)
                with open(os.path.join(root, name), "w", encoding="utf-8") as it:
                    it.write(text)
            before = check_imports.ROOT, check_imports.CRATES
            check_imports.ROOT, check_imports.CRATES = root, os.path.join(root, "crates")
            try:
                self.assertEqual(sorted(check_imports.all_wrong()), sorted(it.replace("/", os.sep) for it in WRONG))
            finally:
                check_imports.ROOT, check_imports.CRATES = before


if __name__ == "__main__":
    unittest.main()
