"""The command `sdd`: what it prints, how it ends, and how it refuses."""
import fnmatch
import glob
import importlib
import io
import json
import os
import subprocess
import sys
import tempfile
import tomllib
import unittest
from typing import NamedTuple
from unittest import mock

import sdd_path  # noqa: F401
from sdd.cli import COMMANDS, main
from sdd.explain.rules import SNAPSHOTS
from sdd import programs
from sdd.programs import ROOT
from sdd.reference import breaking

BRIDGE = [os.path.join(ROOT, "examples", "bridge", x) for x in ("catalogue.toml", "workload")]
TWO_PROTOCOLS = os.path.join(ROOT, "examples", "two_protocols", "catalogue.toml")
REPORT = os.path.join(ROOT, "examples", "bridge", "report")
ALONE = {"PATH": "/nowhere", "NO_COLOR": "1"}     # no program is found on the path
KEPT = ["bridge", "held_write", "lost_packet", "new_kind", "rejected_read", "two_protocols", "undeclared"]


class Done(NamedTuple):
    returncode: int
    stdout: bytes
    stderr: bytes


def call(*words, given=b""):
    """What `sdd` does with these words, in this process."""
    given, out, errors = (io.TextIOWrapper(io.BytesIO(x), encoding="utf-8") for x in (given, b"", b""))
    with mock.patch.dict(os.environ, ALONE), mock.patch.multiple(sys, stdin=given, stdout=out, stderr=errors, argv=["sdd"]), \
            mock.patch.object(programs, "SAID", []), mock.patch.object(programs, "built", lambda name: None):
        try:
            status = main(list(words))
        except SystemExit as ended:
            status = ended.code
        out.flush()
        errors.flush()
    breaking.mend()
    return Done(status or 0, out.buffer.getvalue(), errors.buffer.getvalue())


def run_outside(*command):
    """What a process does."""
    env = {k: v for k, v in os.environ.items() if k != "PYTHONPATH"}
    return subprocess.run(command, stdout=subprocess.PIPE, stderr=subprocess.PIPE, env={**env, **ALONE})


def content(path):
    with open(path, "rb") as f:
        return f.read()


class Answers(unittest.TestCase):
    def test_reports_of_examples(self):
        for name in KEPT:
            files = [os.path.join(ROOT, "examples", name, x) for x in ("catalogue.toml", "workload")]
            done = call("run", *files)
            self.assertEqual((done.returncode, done.stdout), (0, content(os.path.join(os.path.dirname(files[0]), "report"))), name)

    def test_which_program_is_said_once(self):
        self.assertEqual(call("check", BRIDGE[0]).stderr, b"sdd check: by the reference\n")
        self.assertEqual(call("check", BRIDGE[0], "--quiet").stderr, b"")

    def test_standard_input(self):
        done = call("run", BRIDGE[0], "-", given=content(BRIDGE[1]))
        self.assertEqual((done.returncode, done.stdout), (0, content(REPORT)))
        self.assertEqual(call("run", "-", "-").returncode, 2)

    def test_verify_ends_with_1_for_no(self):
        done = call("verify", *BRIDGE, REPORT)
        self.assertEqual((done.returncode, done.stdout), (0, b"yes\n"))
        wrong = content(REPORT).replace(b"row 1 100", b"row 1 120")
        done = call("verify", *BRIDGE, "-", given=wrong)
        self.assertEqual((done.returncode, done.stdout[:2]), (1, b"no"))

    def test_json(self):
        self.assertEqual(json.loads(call("check", "--json", BRIDGE[0]).stdout), {"tms": 2, "dms": 1, "relations": 1, "fragments": 1, "classes": 2})
        report = json.loads(call("run", "--json", *BRIDGE).stdout)
        self.assertEqual((report["order"], report["replies"]["look"]["queries"]), (["look", "raise"], [[[1, 100]]]))
        self.assertEqual(json.loads(call("verify", "--json", *BRIDGE, REPORT).stdout), {"serializable": True})

    def test_json_of_other_answers(self):
        def shown(word, *words):
            return json.loads(call(word, "--json", *words).stdout)
        self.assertIn({"kind": "diagonal", "reader": "shop", "writer": "editor", "fragment": "prices", "block": None}, shown("graph", BRIDGE[0])["edges"])
        self.assertEqual(shown("table", BRIDGE[0])["reads"],
                         [{"reader": "shop", "fragment": "prices", "at": "D1", "writer": "editor", "protocol": "P1", "block": None}])
        self.assertEqual(shown("robust", BRIDGE[0]), {"enough": True})
        self.assertEqual(shown("robust", TWO_PROTOCOLS), {"enough": False, "reader": "southward", "fragment": "north", "writer": "northward"})
        self.assertEqual(shown("needs", BRIDGE[0])["classes"]["editor"]["attempt"], ["T1"])
        self.assertEqual(shown("make", "1", "2")["committed"], 2)
        plain = shown("plain", *BRIDGE)
        self.assertEqual((plain["order"], plain["replies"]["look"]), (["raise", "look"], {"kind": "ok", "queries": [[[1, 120]]]}))

    def test_json_of_explore(self):
        found = json.loads(call("explore", *BRIDGE, "--runs", "3", "--json").stdout)
        self.assertEqual((found["unit"], len(found["designs"])), ("rounds", 1))
        design = found["designs"][0]
        self.assertEqual((design["transactions"], design["class"]["all"]["commits"], design["protocols"]["P3"]), (2, 2 * design["schedules"], 0))

    def test_inside_and_reference(self):
        inside = call("inside", *BRIDGE, "-q").stdout
        self.assertEqual(json.loads(inside.split(b"\n")[0])["inside"], 1)
        self.assertEqual(call("reference", "inside", *BRIDGE).stdout, inside)
        for word in ("robust", "needs"):
            self.assertEqual(call(word, BRIDGE[0], "-q").stdout, call("reference", word, BRIDGE[0]).stdout)
        self.assertEqual(call("robust", BRIDGE[0], "-q").stdout, b"snapshot isolation: enough\n")
        self.assertEqual(call("robust", *BRIDGE, "-q").stdout, b"snapshot isolation: robust\n")
        self.assertEqual(call("certify", *BRIDGE, REPORT, "-q"), Done(0, call("reference", "certify", *BRIDGE, REPORT).stdout, b""))
        self.assertEqual(call("certify", *BRIDGE, "-", "-q", given=b"order\n")[:2], (1, b"serializable no 2\nexpected no reply\ncomplete yes\nstrict yes\n"))
        self.assertNotEqual(call("reference", "--break", "commit-order", "run", *BRIDGE).stdout, b"")

    def test_version_and_help(self):
        lines = call("--version").stdout.decode().split("\n")
        self.assertRegex(lines[0], r"^sdd \d+\.\d+\.\d+")
        self.assertEqual(lines[1:4], ["%s: the reference" % x for x in ("sdd1", "sdd1_inside", "sdd1_ask")])
        shown = call("--help").stdout.decode()
        for word in COMMANDS:
            self.assertIn("    %s " % word, shown)
        self.assertEqual(call("help", "run").stdout, call("run", "--help").stdout)
        self.assertEqual(call().returncode, 2)

    def test_changelog_has_the_version(self):
        version = call("--version").stdout.decode().split("\n")[0].split(" ")[1]
        self.assertIn("## %s" % version, content(os.path.join(ROOT, "CHANGELOG.md")).decode())
        self.assertIn("version: %s\n" % version, content(os.path.join(ROOT, "CITATION.cff")).decode())


class Refusals(unittest.TestCase):
    def refused(self, words, status, *parts, given=b""):
        done = call(*words, given=given)
        self.assertEqual((done.returncode, done.stdout), (status, b""))
        for part in parts:
            self.assertIn(part, done.stderr.decode())
        self.assertNotIn("Traceback", done.stderr.decode())
        return done.stderr.decode()

    def test_words(self):
        self.refused(["chek", BRIDGE[0]], 2, "did you mean check?")
        self.refused(["nothing-like-it"], 2, "`sdd --help` lists them")
        self.refused(["run", BRIDGE[0]], 2, "WORK")
        self.refused(["make", "5", "3000"], 2, "0 to 2048")
        self.refused(["run", BRIDGE[0].replace("catalogue.toml", "catalogue.tml"), BRIDGE[1]], 2, "no such file; did you mean")
        self.refused(["run", os.path.dirname(BRIDGE[0]), BRIDGE[1]], 2, "it is a folder")

    def test_place_and_mark(self):
        given = content(BRIDGE[1]).replace(b"submit look", b"submit lok")
        said = self.refused(["run", BRIDGE[0], "-", "-q"], 4, given=given)
        self.assertEqual(said, "error[UnknownName]: no transaction before is called lok\n  --> <stdin>:10:8\n   |\n10 | submit lok\n"
                               "   |        ^^^\n   = help: did you mean `look`?\n")

    def test_catalogue(self):
        given = content(BRIDGE[0]).replace(b'writes = ["prices"]', b'writes = ["price"]')
        self.refused(["check", "-"], 3, "error[UnknownName]: no fragment is called price", "<stdin>:18:11", "^^^^^^^", "did you mean `prices`?", given=given)
        self.refused(["run", BRIDGE[1], BRIDGE[1]], 3, "the catalogue comes first")

    def test_other_commands_show_it_too(self):
        with tempfile.TemporaryDirectory() as room:
            path = os.path.join(room, "work")
            with open(path, "wb") as f:
                f.write(content(BRIDGE[1]).replace(b"submit look", b"submit lok"))
            for words in (["explore", BRIDGE[0], path], ["page", BRIDGE[0], path, "--into", os.path.join(room, "page.html")],
                          ["play", BRIDGE[0], path], ["to-elle", REPORT, path, BRIDGE[0]]):
                said = self.refused(words, 2, "error[UnknownName]", "work:10:8", "did you mean `look`?")
                self.assertNotIn("line 40", said)

    def test_control_file(self):
        self.refused(["control", "-", "-q"], 4, "no line begins with stepp", "did you mean `step`?", given=b"control 2 3\nstepp 0\nend\n")
        self.refused(["control", "-", "-q"], 4, "there are sites 0 to 2", ":3:11", given=b"control 2 3\nstep 0\ndeliver 0 5\nend\n")

    def test_a_terminal_obeys_nothing(self):
        given = content(BRIDGE[1]).replace(b"row price 1 100", b'row price 1 "\x1b[31m"')
        self.assertNotIn("\x1b", self.refused(["run", BRIDGE[0], "-", "-q"], 4, "\u241b[31m", given=given))

    def test_explain(self):
        done = call("explain", "catalogue: top: NotToml", BRIDGE[1])
        self.assertIn(b"the catalogue comes first", done.stdout)
        self.assertEqual(call("explain", "nonsense").returncode, 2)
        for line in ("limit", "no memory", "read fault", "write fault", *SNAPSHOTS, "pivot a reads what b changes, and changes what c reads"):
            self.assertTrue(call("explain", line).stdout.startswith(line.encode()))

    def test_what_to_ask_next(self):
        for words, said in ((("robust", TWO_PROTOCOLS), b"sdd explain"), (("advise", TWO_PROTOCOLS), b"`sdd robust`")):
            self.assertIn(said, call(*words).stderr)
            self.assertEqual(call(*words, "-q").stderr, b"")
        for word in ("robust", "advise"):
            self.assertNotIn(b"robust`", call(word, BRIDGE[0]).stderr)


class OneFile(unittest.TestCase):
    def test_archive(self):
        with tempfile.TemporaryDirectory() as room:
            path = os.path.join(room, "sdd.pyz")
            made = run_outside(sys.executable, os.path.join(ROOT, "tools", "make_pyz.py"), path)
            self.assertEqual((made.returncode, made.stderr), (0, b""))
            self.assertEqual(run_outside(sys.executable, path, "run", *BRIDGE).stdout, content(REPORT))
            page = os.path.join(room, "page.html")
            self.assertEqual(run_outside(sys.executable, path, "page", *BRIDGE, "--into", page).returncode, 0)
            self.assertIn(b"</html>", content(page))

    def test_clone(self):
        done = run_outside(sys.executable, os.path.join(ROOT, "sdd"), "run", *BRIDGE)
        self.assertEqual((done.returncode, done.stdout), (0, content(REPORT)))


class Package(unittest.TestCase):
    def test_each_command_has_help_and_a_call(self):
        for word, command in COMMANDS.items():
            module = importlib.import_module(command.module)
            self.assertTrue(module.__doc__ and callable(module.main), word)
            self.assertIn("sdd ", module.__doc__, word)
            self.assertLess(len(command.does), 90, word)

    def test_all_files_are_installed(self):
        with open(os.path.join(ROOT, "pyproject.toml"), "rb") as f:
            patterns = tomllib.load(f)["tool"]["setuptools"]["package-data"]["sdd"]
        top = os.path.join(ROOT, "python", "sdd")
        files = [os.path.relpath(os.path.join(at, x), top).replace(os.sep, "/") for at, _, names in os.walk(top) for x in names if "__pycache__" not in at]
        left_out = [x for x in files if not x.endswith(".py") and not any(fnmatch.fnmatch(x, y) for y in patterns)]
        self.assertEqual(left_out, [])
        for at in {os.path.dirname(x) for x in files if x.endswith(".py")}:
            self.assertIn("/".join([at, "__init__.py"]).lstrip("/"), files)

    def test_nothing_is_imported_but_the_standard_library(self):
        allowed = set(sys.stdlib_module_names) | {"sdd"}
        for path in glob.glob(os.path.join(ROOT, "python", "sdd", "**", "*.py"), recursive=True):
            for line in content(path).decode().split("\n"):
                words = line.split()
                if words[:1] in (["import"], ["from"]) and len(words) > 1 and (words[0] == "import" or "import" in words):
                    self.assertIn(words[1].rstrip(",").split(".")[0], allowed, "%s: %s" % (path, line))


if __name__ == "__main__":
    unittest.main()
