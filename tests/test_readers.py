"""The readers of sdd/model: what they accept, and the places and causes of what they refuse."""
import glob
import os
import random
import shutil
import subprocess
import sys
import unittest

import sdd_path  # noqa: F401
from sdd.bench import random_input
from sdd.judge.effect import effect, first_database, read_set
from sdd.model.catalogue import read_catalogue
from sdd.model.report import read_report
from sdd.model.spelling import catalogue_text, workload_text
from sdd.model.toml import NotToml, read_toml
from sdd.model.words import Fault
from sdd.model.workload import read_workload
from sdd.programs import ROOT
from sdd.reference.made import BANK
from sdd.reference import plain

EXAMPLES = sorted(glob.glob(os.path.join(ROOT, "examples", "*", "catalogue.toml")))
CATALOGUE = """\
tms = 2
dms = 1
[[relation]]
name = "price"
columns = [
  {name = "item", kind = "int"},
  {
    name = "cents",     # TOML 1.1: an inline table over several lines, with a comma at its end
    kind = "int",
  },
]
key = "item"
[[fragment]]
name = "prices"
relation = "price"
copies = [1]
[[class]]
name = "shop"
tm = 2
reads = [{fragment = "prices", at = 1}]
"""
WORKLOAD = """\
row price 1 100
txn look T2
query 1.item 1.cents from price where 1.item = 1
done
submit look
deliver T2 D1 1
end
"""


def content(path):
    with open(path, "rb") as f:
        return f.read()


def with_line(text, old, new):
    assert old in text, old
    return text.replace(old, new, 1)


class Toml(unittest.TestCase):
    def test_inline_table_over_lines(self):
        cat = read_catalogue(CATALOGUE.encode())
        self.assertEqual(cat.relations[0].columns, [("item", "int"), ("cents", "int")])

    def test_cr_lf_and_mark(self):
        self.assertEqual(read_catalogue(CATALOGUE.encode()), read_catalogue(b"\xef\xbb\xbf" + CATALOGUE.replace("\n", "\r\n").encode()))

    def test_places_of_values(self):
        table = read_toml(b'a = [1, "two"]\nb.c = {d = 5}\n')
        begin, end = table["a"].spans[1]
        self.assertEqual(table.text[begin:end], '"two"')
        inner = table["b"]["c"]
        begin, end = inner.values_at["d"]
        self.assertEqual(table.text[begin:end], "5")

    def test_what_is_no_toml(self):
        for text, rest in ((b"a = \n", "\n"), (b"a = 1 2\n", "2\n"), (b"a = 01\n", "01\n"), (b'a = "x\n', '"x\n'), (b"a = 1\na = 2\n", "a = 2\n"),
                           (b"[a]\n[[a]]\n", "[[a]]\n"), (b"a = {b = 1\n", ""), (b"a = 1\n\xff\n", ""),
                           (b"a = " + b"1" * 5000, "1" * 5000)):
            with self.assertRaises(NotToml) as caught:
                read_toml(text)
            self.assertEqual(caught.exception.text[caught.exception.at:], rest, text)
            self.assertTrue(caught.exception.what)


class Catalogues(unittest.TestCase):
    def refused(self, old, new, line, at, among=None):
        text = with_line(CATALOGUE, old, new)
        with self.assertRaises(Fault) as caught:
            read_catalogue(text.encode())
        cause = caught.exception.cause
        self.assertEqual(caught.exception.line, line)
        self.assertEqual(text.split("\n")[cause.line - 1][cause.begin:cause.end], at)
        self.assertTrue(cause.what)
        if among is not None:
            self.assertEqual(cause.among, among)

    def test_causes_and_places(self):
        self.refused("copies = [1]", "copies = 1", "catalogue: fragment 1: WrongKind", "1")
        self.refused("copies = [1]", "copies = [1, 1]", "catalogue: fragment 1: DuplicateName", "1")
        self.refused("copies = [1]", "copies = [3]", "catalogue: fragment 1: UnknownName", "3")
        self.refused("copies = [1]", "copies = []", "catalogue: fragment 1: NoCopy", "[]")
        self.refused("copies = [1]", "copies = [1]\nto = 9", "catalogue: fragment 1: RangeGap", "9")
        self.refused('relation = "price"', 'relation = "prize"', "catalogue: fragment 1: UnknownName", '"prize"', ("price",))
        self.refused('key = "item"', 'key = "cent"', "catalogue: relation 1: UnknownName", '"cent"', ("item", "cents"))
        self.refused('kind = "int",\n', 'kind = "number",\n', "catalogue: relation 1: WrongKind", '"number"')
        self.refused("tm = 2", "tm = 3", "catalogue: class 1: UnknownName", "3")
        self.refused("tm = 2", "module = 2", "catalogue: class 1: UnknownField", "module")
        self.refused("tm = 2\n", "", "catalogue: class 1: MissingField", "[[class]]")
        self.refused("at = 1", "at = 2", "catalogue: class 1: UnknownName", "2")
        self.refused('fragment = "prices"', 'fragment = "price"', "catalogue: class 1: UnknownName", '"price"', ("prices",))
        self.refused("copies = [1]\n", "", "catalogue: fragment 1: MissingField", "[[fragment]]")
        self.refused("tms = 2", "tms = 0", "catalogue: top: TooFew tm", "0")
        self.refused("tms = 2", "tms = 2 data", "catalogue: top: NotToml", "data")

    def test_examples(self):
        for path in EXAMPLES:
            cat = read_catalogue(content(path))
            self.assertEqual(read_catalogue(catalogue_text(cat).encode()), cat, path)

    def test_bank_with_comments(self):
        for path in ("examples/bank/catalogue.toml", "crates/sdd1/data/bank.toml"):
            self.assertEqual(read_catalogue(content(os.path.join(ROOT, path))), BANK)


class Workloads(unittest.TestCase):
    cat = read_catalogue(CATALOGUE.encode())

    def refused(self, old, new, line, at):
        text = with_line(WORKLOAD, old, new)
        with self.assertRaises(Fault) as caught:
            read_workload(self.cat, text.encode())
        cause = caught.exception.cause
        self.assertEqual(caught.exception.line, line)
        self.assertEqual(text.split("\n")[cause.line - 1][cause.begin:cause.end], at)

    def test_causes_and_places(self):
        self.refused("submit look", "submit lok", "workload: line 5: UnknownName", "lok")
        self.refused("submit look", "submit look\nsubmit look", "workload: line 6: SubmittedTwice", "look")
        self.refused("row price", "row prise", "workload: line 1: UnknownName", "prise")
        self.refused("1 100", "1 1.5", "workload: line 1: BadNumber", "1.5")
        self.refused("1 100", '1 "x"', "workload: line 1: WrongKind", '"x"')
        self.refused("1 100", "1", "workload: line 1: WrongKind", "price")
        self.refused("1.cents from", "1.cent from", "workload: line 3: UnknownName", "1.cent")
        self.refused("1.item = 1", "2.item = 1", "workload: line 3: UnknownName", "2.item")
        self.refused("deliver T2 D1 1", "deliver T2 T1 1", "workload: line 6: BadEvent", "T1")
        self.refused("deliver T2 D1 1", "deliver T2 D4 1", "workload: line 6: BadEvent", "D4")
        self.refused("deliver T2 D1 1", "deliver T2 D1 0", "workload: line 6: BadNumber", "0")
        self.refused("deliver T2 D1 1", "row price 2 5", "workload: line 6: BadLine", "row")
        self.refused("deliver T2 D1 1", "deliver T2 D1 1\r", "workload: line 6: BadNumber", "\r")
        self.refused("txn look T2", "txn look D1", "workload: line 2: BadEvent", "D1")
        self.refused("end\n", "", "workload: line 7: NoEnd", "")
        self.refused("1.item = 1", "1.item = 1 1.cents = 2", "workload: line 3: BadLine", "1.cents")
        self.refused("1.item = 1", "1.item is 1", "workload: line 3: BadLine", "is")
        self.refused("1.item = 1", "1.item =", "workload: line 3: BadLine", "=")

    def test_same_text_again(self):
        for path in EXAMPLES:
            given = os.path.join(os.path.dirname(path), "workload")
            if os.path.exists(given):
                cat = read_catalogue(content(path))
                self.assertEqual(workload_text(cat, read_workload(cat, content(given))).encode(), content(given), given)

    def test_random_text_again(self):
        for seed in range(60):
            cat, work = random_input.scheduled(random.Random(seed), True)
            text = workload_text(cat, work)
            self.assertEqual(workload_text(cat, read_workload(cat, text.encode())), text)


class Effects(unittest.TestCase):
    """What a transaction does is written twice: by the reference, and, to judge from outside, in sdd/judge/effect.py."""

    def test_two_writings_agree(self):
        compared = 0
        for seed in range(150):
            cat, work = random_input.workload(random.Random(seed))
            rows, database = first_database(work, cat), plain.database_of(cat, work.rows)
            for txn in work.txns:
                reply, changes = effect(txn, rows, cat)
                theirs, their_changes = plain.effect(cat, database, txn)
                self.assertEqual((tuple(reply), changes), (tuple(theirs), their_changes), "seed %d, %s" % (seed, txn.name))
                self.assertEqual(read_set(txn, cat), plain.fragments_read(cat, txn))
                compared += 1
        self.assertGreater(compared, 300)


class Reports(unittest.TestCase):
    def test_examples(self):
        for path in EXAMPLES:
            report = os.path.join(os.path.dirname(path), "report")
            if os.path.exists(report):
                self.assertTrue(read_report(report).records, report)


class Types(unittest.TestCase):
    @unittest.skipUnless(shutil.which("mypy"), "mypy isn't installed")
    def test_model_is_typed(self):
        done = subprocess.run([shutil.which("mypy"), "--no-error-summary", "--cache-dir", os.devnull], cwd=ROOT, capture_output=True, text=True)
        self.assertEqual((done.returncode, done.stdout), (0, ""))


if __name__ == "__main__":
    sys.exit(unittest.main())
