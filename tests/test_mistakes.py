"""Mistakes that people make in files and calls: each is refused with its place, its mark, its cause and what helps."""
import os
import re
import tempfile
import unittest

from test_command import BRIDGE, REPORT, call, content

CATALOGUE, WORKLOAD = (content(x).decode() for x in BRIDGE)
# what is written in place of what; the line and the column; what is marked; the cause; what helps
IN_CATALOGUE = [
    ("copies = [1]", "copies = 1", "13:10", "1", "copies is no array", "as copies = [1]"),
    ("tm = 1\n", "tm = 1\nhome = 1\n", "18:1", "home", "home isn't a field of a class", "name, tm, reads, writes"),
    ('kind = "int"', 'type = "int"', "7:28", "type", "type isn't a field of a column", "name, kind"),
    ('writes = ["prices"]', 'writes = ["price"]', "18:11", '"price"', "no fragment is called price", "did you mean `prices`?"),
    ("at = 1", "at = 2", "23:37", "2", "D2 isn't there", "dms is 1"),
    ("tm = 1\n", "tm = 3\n", "17:6", "3", "T3 isn't there", "tms is 2"),
    ("copies = [1]", "copies = [1]\nto = 99", "14:6", "99", "no fragment has the keys from 100 on", "the last one no `to`"),
    ("tms = 2", "tms = 2 data", "2:9", "data", "the line goes on where it should end", ""),
    ('key = "item"', 'key = "price"', "8:7", '"price"', "price is none of its columns", "there are item, cents"),
    ('kind = "int"', 'kind = "integer"', "7:35", '"integer"', 'the kind of a column is "int" or "text"', "did you mean `int`?"),
]
IN_WORKLOAD = [
    ("put price 1 120", "UPDATE price SET cents = 120 WHERE item = 1", "3:1", "UPDATE", "no line begins with UPDATE", "`update REL set REF = V"),
    ("put price 1 120", "put price 1", "3:5", "price", "2 columns (item, cents), and the line 1 values", "`put REL V ..`"),
    ("1.item 1.cents", "item cents", "6:7", "item", "the number of its relation before it: 1.item", "`query REF .. from REL"),
    ("1.item 1.cents", "*", "6:7", "*", "there is no `*`: name the columns", "`query REF .. from REL"),
    ("from price", "from price where 1.item=1", "6:39", "1.item=1", "a space stands before and after each operator", ""),
    ("submit look", "submit lok", "10:8", "lok", "no transaction before is called lok", "did you mean `look`?"),
    ("deliver T2 D1 1", "deliver T2 D1", "11:1", "", "3 words stand behind the first word, and there are 2", "`deliver A B K`"),
    ("tick T2 5", "tick T2", "9:1", "", "2 words stand behind the first word, and there is 1", "`tick Tn N`"),
    ("submit look", "\nsubmit look", "10:1", "", "the line is empty", ""),
    ("submit look", "# a comment\nsubmit look", "10:1", "# a comment", "there are no comments in a workload", ""),
    ("settle\nend\n", "settle\n", "17:1", "", "the line `end` is missing", "the last line is `end`"),
    ("settle\nend\n", "settle\nend", "17:1", "", "no newline stands after the last line", "a newline stands after it"),
    ("row price 1 100", "row price 'x' 100", "1:11", "'x'", 'a text stands between " and "', ""),
    ("deliver T2 D1 1", "deliver T1 T2 1", "11:12", "T2", "no link goes from T1 to T2", "links join U and a T"),
    ("submit look", "submit raise", "10:8", "raise", "raise is submitted before, in line 8", "under another name"),
    ("put price 1 120", "update price set 1.item = 2 where 1.item = 1", "3:18", "1.item", "1.item is the key of price", "delete the row, and put one"),
    ("row price 1 100", "row price 1 100.5", "1:13", "100.5", "numbers are whole; 100.5 isn't", ""),
    ("put price 1 120", "put prices 1 120", "3:5", "prices", "no relation is called prices", "did you mean `price`?"),
    ("txn look T2", "txn look D2", "5:10", "D2", "D2 is no transaction module", ""),
    ("row price 1 100\n", "row price 1 100\r\n", "1:16", " ", "the line ends with CR LF", "line ends of Unix"),
]
# the words; the status; what is said
CALLS = [
    ([], 2, "sdd WORD .."), (["--help"], 0, "sdd WORD .."), (["--version"], 0, "sdd 0."), (["help"], 0, "sdd WORD .."), (["chek", BRIDGE[0]], 2, "did you mean check?"),
    (["run", BRIDGE[0]], 2, "required: WORK"), (["make", "5"], 2, "required: N"), (["make", "5", "3000"], 2, "N one from 0 to 2048"),
    (["run", BRIDGE[0] + "x", BRIDGE[1]], 2, "catalogue.tomlx: no such file; did you mean"), (["run", os.path.dirname(BRIDGE[0]), BRIDGE[1]], 2, "it is a folder"),
    (["run", BRIDGE[1], BRIDGE[0]], 3, "this is a workload, and a catalogue is wanted here: the catalogue comes first"),
]
SQL = "CREATE TABLE a (id INT PRIMARY KEY, b INT) AT D1;\nTRANSACTION t() AT T1;\n%s;\nCOMMIT;\nCALL t();\n"
IN_SQL = [
    ("SELECT b FROM a WHERE id = 1 OR id = 2", "there is no OR; write two statements"), ("SELECT b FROM a ORDER BY b", "there is no ORDER BY"),
    ("SELECT COUNT(b) FROM a", "nothing is counted"), ("SELECT b FROM a LIMIT 1", "there is no LIMIT"), ("SELECT DISTINCT b FROM a", "leave DISTINCT out"),
    ("SELECT b FROM a WHERE id IN (1, 2)", "one statement for each value"), ("SELECT b FROM a GROUP BY b", "there are no groups"),
    ("UPDATE a SET id = 2 WHERE id = 1", "delete the row and insert another"), ("SELECT c FROM a", "no column of these tables"), ("SELECT b FROM aa", "there is no table aa"),
]
READERS = [                 # the other commands that read both files; {} is the folder for what they write
    ["explore", "c", "w"], ["explore", "c", "w", "--link", "5"], ["what-if", "c", "w"], ["page", "c", "w", "--into", "{}/page.html"], ["play", "c", "w"],
    ["to-elle", REPORT, "w", "c"], ["all-orders", REPORT, "w", "c"], ["picture", REPORT, "c", "w", "--into", "{}/x.svg"], ["grade", "c", "w", REPORT],
    ["shrink", "c", "w", "--keep", "wait", "--into", "{}/small"], ["find-broken", "all-p1", "c", "w", "0", "1"], ["history", "c", "w", "--into", "{}/h", "--engine", "sqlite"],
    ["inside", "c", "w"], ["plain", "c", "w"], ["verify", "c", "w", REPORT],
]


class Mistakes(unittest.TestCase):
    def setUp(self):
        self.room = tempfile.TemporaryDirectory()
        self.paths = [os.path.join(self.room.name, x) for x in ("catalogue.toml", "workload")]

    def tearDown(self):
        self.room.cleanup()

    def written(self, catalogue=CATALOGUE, workload=WORKLOAD):
        for path, text in zip(self.paths, (catalogue, workload)):
            with open(path, "wb") as f:
                f.write(text.encode())
        return self.paths

    def refused(self, words, status):
        done = call(*words)
        self.assertEqual((status, b""), (done.returncode, done.stdout), words)
        self.assertNotIn(b"Traceback", done.stderr)
        return done.stderr.decode()

    def is_explained(self, said, path, place, mark, cause, help_):
        """The place, and a mark under what is wrong."""
        self.assertIn("--> %s:%s\n" % (path, place), said)
        marked = re.search(r"^ *\d+ \| (.*)\n *\| ( *)(\^+)$", said, re.MULTILINE)
        self.assertEqual(mark, (marked[1] + " ")[len(marked[2]):len(marked[2] + marked[3])] if marked else "", said)
        self.assertIn(cause, said)
        self.assertIn(help_, said)

    def test_catalogues(self):
        for old, new, *expected in IN_CATALOGUE:
            self.assertIn(old, CATALOGUE)
            paths = self.written(catalogue=CATALOGUE.replace(old, new, 1))
            self.is_explained(self.refused(["check", paths[0], "-q"], 3), paths[0], *expected)

    def test_workloads(self):
        for old, new, *expected in IN_WORKLOAD:
            self.assertIn(old, WORKLOAD)
            paths = self.written(workload=WORKLOAD.replace(old, new, 1))
            self.is_explained(self.refused(["run", *paths, "-q"], 4), paths[1], *expected)

    def test_calls(self):
        for words, status, what in CALLS:
            done = call(*words)
            self.assertEqual(status, done.returncode, words)
            self.assertIn(what, (done.stdout if status == 0 else done.stderr).decode(), words)

    def test_a_report_of_another_run(self):
        paths, report = self.written(), os.path.join(self.room.name, "report")
        with open(report, "wb") as f:
            f.write(content(REPORT).replace(b"row 1 100", b"row 1 120"))
        done = call("verify", *paths, report, "-q")
        self.assertEqual((1, b"no 13\n"), (done.returncode, done.stdout))
        self.assertEqual(b"row 1 120", content(report).split(b"\n")[12])

    def test_sql(self):
        path = os.path.join(self.room.name, "script.sql")
        for statement, what in IN_SQL:
            with open(path, "w", encoding="utf-8") as f:
                f.write(SQL % statement)
            said = self.refused(["from-sql", path, "--into", self.room.name + "/out"], 2)
            self.assertRegex(said, r"script\.sql: line [3-5]: .*%s" % re.escape(what))

    def test_all_commands_explain(self):
        """Each command that reads both files shows the place in the reader's file, and what is meant."""
        paths = self.written(workload=WORKLOAD.replace("submit look", "submit lok"))
        for words in READERS:
            words = [{"c": paths[0], "w": paths[1]}.get(x, x.replace("{}", self.room.name)) for x in words]
            done = call(*words)
            self.assertIn(done.returncode, (2, 4), words)
            self.is_explained(done.stderr.decode(), paths[1], "10:8", "lok", "no transaction before is called lok", "did you mean `look`?")


if __name__ == "__main__":
    unittest.main()
