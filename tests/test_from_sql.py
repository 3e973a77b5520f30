"""SQL for designs: shared classes, drawn calls, rows by spans; and files that were edited by hand stay."""
import collections
import contextlib
import io
import os
import sys
import tempfile
import unittest

import sdd_path  # noqa: F401
from sdd.design import from_sql
from sdd.model.files import BadInput, text_of
from sdd.model.reading import catalogue_at, workload_at
from sdd.reference.plain import class_for

SCRIPT = """
CREATE TABLE seat (id INT PRIMARY KEY, state TEXT) PARTITION BY RANGE (id) (
  PARTITION near VALUES LESS THAN (1000) AT D1, PARTITION far VALUES LESS THAN MAXVALUE AT D2);
CREATE TABLE booking (id INT PRIMARY KEY, cents INT) AT D1;
INSERT INTO seat VALUES (1 TO 20, 'free'), (1001 TO 1005, 'free');
INSERT INTO booking VALUES (3, 100);
TRANSACTION look(:s 1 TO 999) AT T1; SELECT state FROM seat WHERE id = :s; COMMIT;
TRANSACTION book(:b 1 TO 9999, :s 1 TO 999 ZIPF, :cents IN (900, 1500)) AT T1 IN desk;
  INSERT INTO booking VALUES (:b, :cents);
  UPDATE seat SET state = 'sold' WHERE id = :s;
COMMIT;
TRANSACTION swap(:one 1 TO 999, :other 1 TO 999, :state IN ('free', 'sold')) AT T1 IN desk;
  UPDATE seat SET state = :state WHERE id = :one;
  UPDATE seat SET state = 'held' WHERE id = :other;
COMMIT;
DRAW 200 (look 50, book 30, swap 20) SEED 7;
CALL look(2);
"""


def made(text, folder, *words):
    """What from-sql prints; the files are in the folder."""
    path = os.path.join(folder, "script.sql")
    with open(path, "w", encoding="utf-8") as f:
        f.write(text)
    before, sys.argv = sys.argv, ["sdd from-sql", path, "--into", os.path.join(folder, "out"), *words]
    told = io.StringIO()
    try:
        with contextlib.redirect_stdout(told):
            from_sql.main()
    finally:
        sys.argv = before
    return told.getvalue()


def read(folder):
    cat = catalogue_at(os.path.join(folder, "out", "catalogue.toml"))
    return cat, workload_at(os.path.join(folder, "out", "workload"), cat)


class Translations(unittest.TestCase):
    def setUp(self):
        self.room = tempfile.TemporaryDirectory()
        self.folder = self.room.name

    def tearDown(self):
        self.room.cleanup()

    def test_transactions_share_a_class(self):
        made(SCRIPT, self.folder)
        cat, work = read(self.folder)
        self.assertEqual(["look", "desk"], [x.name for x in cat.classes])
        self.assertEqual({1, 2}, {class_for(cat, x) for x in work.txns})
        with self.assertRaisesRegex(BadInput, "the class desk is at T1 already, and swap is at T2"):
            made(SCRIPT.replace("'sold')) AT T1 IN desk", "'sold')) AT T2 IN desk"), self.folder)

    def test_one_class_at_each_module(self):
        made(SCRIPT.replace(" IN desk", ""), self.folder, "--classes", "module")
        self.assertEqual(["look", "at_t1"], [x.name for x in read(self.folder)[0].classes])

    def test_calls_are_drawn(self):
        made(SCRIPT, self.folder)
        work = read(self.folder)[1]
        kinds = collections.Counter(x.name.split("_")[0] for x in work.txns)
        self.assertEqual(201, len(work.submitted()))
        self.assertTrue(80 < kinds["look"] < 120 and 40 < kinds["book"] < 80 and 25 < kinds["swap"] < 55, kinds)
        books = [x.statements for x in work.txns if x.name.startswith("book")]
        keys = [put.row[0] for put, _ in books]
        self.assertEqual(sorted(set(keys)), keys)
        self.assertNotIn(3, keys)
        seats = collections.Counter(update.conds[0].value for _, update in books)
        self.assertTrue(set(seats) <= set(range(1, 21)) and seats[1] > seats[10], seats)
        for x in (x.statements for x in work.txns if x.name.startswith("swap")):
            self.assertNotEqual(x[0].conds[0].value, x[1].conds[0].value)
        first = text_of(os.path.join(self.folder, "out", "workload"))
        made(SCRIPT, self.folder)
        self.assertEqual(first, text_of(os.path.join(self.folder, "out", "workload")))
        made(SCRIPT.replace("SEED 7", "SEED 8"), self.folder)
        self.assertNotEqual(first, text_of(os.path.join(self.folder, "out", "workload")))

    def test_rows_by_spans(self):
        made(SCRIPT, self.folder)
        self.assertEqual(26, len(read(self.folder)[1].rows))

    def test_refusals(self):
        for before, after, what in (
                (":s 1 TO 999) AT T1; SELECT", ":s) AT T1; SELECT", "which values :s has isn't known"),
                ("look 50", "lok 50", "there is no transaction lok"),
                ("(1 TO 20, 'free')", "(1, 'free TO', 3)", "3 values for 2 columns"),
                ("(3, 100)", "(3, 1 TO 5)", "only the key id of booking can be a span"),
                ("1 TO 20", "20 TO 1", "20 TO 1 has no number"),
                ("(900, 1500)", "(900, 'x')", ":cents has numbers and texts"),
                ("DRAW 200", "DRAW 0", "has 1 call or more"),
                ("CALL look(2)", "CALL look(1000)", "isn't in the range of :s")):
            self.assertIn(before, SCRIPT)
            with self.assertRaisesRegex(BadInput, what):
                made(SCRIPT.replace(before, after), self.folder)

    def test_what_was_edited_by_hand_stays(self):
        made(SCRIPT, self.folder)
        path = os.path.join(self.folder, "out", "catalogue.toml")
        with open(path, "a", encoding="utf-8") as f:
            f.write("# mine\n")
        told = made(SCRIPT.replace(" IN desk", ""), self.folder)
        self.assertIn("catalogue.toml was edited by hand, and stays", told)
        self.assertIn("# mine", text_of(path))
        self.assertIn('name = "swap"', text_of(os.path.join(self.folder, "out", "catalogue.new.toml")))
        self.assertNotIn("workload was edited", told)
        os.remove(os.path.join(self.folder, "out", ".made"))
        self.assertIn("stays", made(SCRIPT, self.folder))


if __name__ == "__main__":
    unittest.main()
