"""Certificates of reports: serializable, complete and strict, and what follows a no."""
import os
import unittest

import sdd_path  # noqa: F401
from sdd.model.catalogue import read_catalogue
from sdd.model.workload import read_workload
from sdd.programs import ROOT
from sdd.reference.certify import certificate_text
from sdd.reference.commands import answer


def content(*names):
    with open(os.path.join(ROOT, *names), "rb") as f:
        return f.read()


BRIDGE = "examples", "bridge"
CAT = read_catalogue(content(*BRIDGE, "catalogue.toml"))
WORK = read_workload(CAT, content(*BRIDGE, "workload"))
REPLIES = b"reply look ok\nquery 1 1\nrow 1 100\nreply raise ok\nend\n"


def certified(report):
    return certificate_text(CAT, WORK, report)


class Certificates(unittest.TestCase):
    def test_all_three(self):
        self.assertEqual(certified(b"1 submit look\n2 submit raise\n3 commit raise#1\n3 commit look#2\norder look raise\n" + REPLIES),
                         "serializable yes\ncomplete yes\nstrict yes\n")

    def test_a_run_need_not_be_strict(self):
        self.assertEqual(certified(content(*BRIDGE, "report")), "serializable yes\ncomplete yes\nstrict no 4\nlate raise\n")

    def test_the_expected_line(self):
        report = b"order look raise\n" + REPLIES.replace(b"row 1 100", b"row 1 110")
        self.assertEqual(certified(report), "serializable no 4\nexpected row 1 100\ncomplete yes\nstrict yes\n")
        report = b"order look raise\n" + REPLIES.replace(b"reply raise ok\n", b"reply raise ok\nrow 1 110\n")
        self.assertEqual(certified(report), "serializable no 6\nexpected no reply\ncomplete yes\nstrict yes\n")
        self.assertEqual(certified(b"order look raise\n"), "serializable no 2\nexpected reply look ok\ncomplete yes\nstrict yes\n")

    def test_a_missing_commit(self):
        report = b"7 commit raise\norder look\n" + REPLIES.replace(b"reply raise ok\n", b"")
        self.assertEqual(certified(report), "serializable yes\ncomplete no 1\nmissing raise\nstrict yes\n")
        self.assertEqual(certified(b"x commit nobody#1 y\n" + report).split("\n")[1:3], ["complete no 1", "missing nobody"])
        self.assertEqual(certified(b"1 commits raise\n1 commit\ncommit raise\n" + report[15:]).split("\n")[1], "complete yes")

    def test_strict_by_lines_before_the_order_alone(self):
        done_first = b"1 submit raise\n1 commit raise#1\n2 submit look\n"
        self.assertEqual(certified(b"order look raise\n" + REPLIES + done_first), "serializable yes\ncomplete yes\nstrict yes\n")
        self.assertEqual(certified(done_first + b"order look raise\n" + REPLIES), "serializable yes\ncomplete yes\nstrict no 3\nlate raise\n")

    def test_the_last_of_several_is_late(self):
        report = b"1 commit a#1\n1 commit b#1\n2 submit c\norder c a b\nend\n"
        self.assertEqual(certified(report).split("\n")[2:], ["strict no 3", "late b", ""])

    def test_without_an_order(self):
        for report, number in ((b"", 1), (b"1 commit raise#1\nordered raise\n", 3)):
            self.assertEqual(certified(report), "serializable no %d\ncomplete no %d\nstrict no %d\n" % (number, number, number))

    def test_bytes_that_are_no_text(self):
        report = b"1 commit \xff#1\norder\nend\n"
        files = {"cat": content(*BRIDGE, "catalogue.toml"), "work": content(*BRIDGE, "workload"), "report": report}
        status, reported, text = answer(["certify", "cat", "work", "report"], files.__getitem__)
        self.assertEqual((status, reported, text.encode("utf-8", "surrogateescape")),
                         (0, "", b"serializable yes\ncomplete no 1\nmissing \xff\nstrict yes\n"))


if __name__ == "__main__":
    unittest.main()
