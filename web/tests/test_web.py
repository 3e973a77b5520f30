#!/usr/bin/env python3
"""Tries sdd1.html in a headless Chromium, opened from disk.

    web/tests/test_web.py PAGE --program COMMAND --inside COMMAND [--random N] [--only PART ..]

COMMAND is a natively built `sdd1`, and a built `sdd1_inside`. Parts:

form       examples, report, graph, refusals with their lines, files opened and saved, addresses, reload, back, keys
stop       a long run shows how far it is, and is stopped by the button and by Escape; the next run starts
clicks     schedules made with the mouse, whose saved files are the workloads of examples (tests/page_clicks.py)
data       what the page shows of a run is what sdd/view/states.py makes with the native programs: of the examples, of catalogues
           spelled oddly, and of N random runs (50 without --random)
pages      the pages of examples and of some random runs, event by event, forward and back (tests/page_checks.py)
sizes      nothing is wider than the window on a phone and on two screens, light and dark
policy     what the page may not do, it can't
message    what a browser without memories of 64 bits shows
first      how long the first look at the example `bank` takes ; more than --seconds, where they are given, is a fault
"""
import json
import os
import random
import tempfile
import time

from opened import SIZE, SIZES, FormChecks, Opened, StopChecks

import page_checks
import page_clicks
import test_page as page_tests
from browser import Browser, Fault, find_browser
from page_checks import Wrong, same
from random_calls import run_call
from sdd.command import count, parser, start
from sdd.explain import rules
from sdd.model.files import BadInput, bytes_of
from sdd.programs import Refused
from sdd.view import states

SLOW_PAGES = ["bank", "tatp", "tpcc", "ycsb", "smallbank"]         # minutes each
ODD_CATALOGUE = """\ufeff# a comment " with \u2028 quotes
"tms" = 0x1
'dms' = 0b1\r
relation = [{name = "r", key = \"\"\"
k\"\"\", columns = [ # a comment ]
  {"na\\u006de" = '''
k''', kind = "int",},
  {kind = "text" , name = "t"}]}]
fragment = [{name = "f", relation = "r", copies = [+1,], "from" = -9_223_372_036_854_775_808}]
[[class]]
tm = 1
name = \"\"\"c\\
   d\"\"\"
[[class.reads]]
fragment = "f"
at = 0o1
"""
PLAIN_CATALOGUE = """tms = 1
dms = 1
relation = [{name = "r", key = "k", columns = [{name = "k", kind = "int"}, {name = "t", kind = "text"}]}]
fragment = [{name = "f", relation = "r", copies = [1]}]
class = [{name = "cd", tm = 1, reads = [{fragment = "f", at = 1}]}]
"""
ODD_RUN = "row r 5 \"x\"\ntxn a T1\nquery 1.k from r\ndone\nsubmit a\nsettle\nend\n"
POLICY_TRIED = """new Promise(done => {
    const tell = text => { window.tried = text; done(); };
    document.addEventListener("securitypolicyviolation", x => tell("refused by " + x.effectiveDirective), {once: true});
    setTimeout(() => { try { %s; } catch {} }, 0);          // not in the words of the debugger, which may do more
    setTimeout(() => tell("allowed"), 1500);
})"""
FORBIDDEN = [
    "fetch('https://example.org/')", "fetch('data:,x')", "new Function('return 1')", "eval('1')", "new WebSocket('wss://example.org')",
    "new Worker('data:text/javascript,0')", "import('data:text/javascript,0')", "new Image().src = 'https://example.org/x.png'",
    "document.body.append(Object.assign(document.createElement('script'), {textContent: '0'}))",
    "document.body.append(Object.assign(document.createElement('iframe'), {src: 'https://example.org/'}))"]


class Tests(Opened):
    def form(self):
        checks = FormChecks(self.asked, self.folder, self.browser)
        tried = [(checks.recipe, SIZES[0])] + [(x, SIZE) for x in (
            checks.recipe, checks.reports, checks.refused, checks.files, checks.addresses, checks.reload_and_back, checks.keys)]
        for check, size in tried:
            page = self.open(size=size)
            check(page)
            same("faults of scripts in " + check.__name__, page.faults(), [])
            page.close()
        return "%d checks" % len(tried)

    def stop(self):
        return StopChecks(self.asked, self.folder, self.browser).stop()

    # ---- What is shown. ----

    def runs(self):
        yield from page_tests.example_files()
        yield "odd names", page_tests.written(self.folder, "odd", page_tests.ODD_CATALOGUE.encode(), page_tests.ODD_WORKLOAD.encode())
        for seed in range(self.asked.random):
            drawn = run_call(random.Random(seed)).files
            yield "seed %d" % seed, page_tests.written(self.folder, str(seed), drawn["cat"], drawn["work"])

    def data(self):
        page, tried, refused = self.open(), 0, 0
        ask = "runData(programs, %s, %s, 'x').then(x => JSON.stringify(x), x => x.message)"
        for name, files in self.runs():
            have = page.tell(ask % tuple(json.dumps(bytes_of(x).decode()) for x in files))
            try:
                want = json.loads(json.dumps(states.run_data(self.programs, *files, "x")))
                same("data of " + name, json.loads(have), want)
            except Refused as fault:
                same("refusal of " + name, have, str(fault))
                refused += 1
            tried += 1
        odd, plain = (json.loads(page.tell(ask % (json.dumps(x), json.dumps(ODD_RUN)))) for x in (ODD_CATALOGUE, PLAIN_CATALOGUE))
        same("data of a catalogue that is spelled oddly", odd, plain)
        page.close()
        return "%d runs, %d of them refused" % (tried + 1, refused)

    def pages(self):
        events = 0
        for name, files in self.runs():
            if name in SLOW_PAGES or name.startswith("seed") and int(name[5:]) >= 10:
                continue
            page = self.open()
            self.fill(page, *[bytes_of(x).decode() for x in files])
            page.click("#look-inside")
            page.wait("!isForm()")
            page_checks.Check(page, states.run_data(self.programs, *files, "x")).whole()
            events += page.tell("view.run.count")
            page.close()
        return "%d events" % events

    def clicks(self):
        examples, tried = dict(page_tests.example_files()), 0
        page_clicks.Served = lambda *words, **more: Local(self, *words, **more)
        for name in page_clicks.CLICKED:
            page_clicks.whole_workload(self.browser, self.programs, self.folder, *examples[name])
            tried += 1
        try:
            page_clicks.earlier(Until(self.browser, "location.reload"), self.programs, self.folder, *examples["rejected_read"])
        except Reached:
            pass                                # what is left of the check is of the server
        self.refused_clicks(examples["rejected_read"][0])
        page_clicks.matrix(self.browser, self.programs, self.folder)
        return "%d made with the mouse" % (tried + 3)

    def refused_clicks(self, catalogue):
        """What the program refuses is told with the line that was typed, and changes nothing."""
        with Local(self, self.browser, self.programs, catalogue, None, self.folder) as played:
            played.write(["txn t T1", "query 1.number from seat", "put seat 1", "done"])
            played.click("#add-submit")
            same("what is told", played.reported_text(), "line 3, `put seat 1`: WrongKind: " + rules.OF_WORKLOAD["WrongKind"][0])
            played.fill("#txn-text", "query 1.number from seats")
            played.click("#add")
            same("what is told", played.reported_text().startswith("line 2, `query 1.number from seats`: UnknownName: "), True)
            same("the workload", played.saved(), "end\n")
            played.fill("#txn-text", "query 1.number from seat\ndone\nend")
            played.click("#add")
            same("what is told", played.reported_text().startswith("`done` ends the transaction"), True)
            played.fill("#txn-text", "query 1.number from seat")
            played.click("#add-submit")
            same("what is told of the class", "runs undeclared" in played.reported_text(), True)
            played.fill("#site-T1 .tick input", "0")
            played.click("#site-T1 .tick button")
            same("the schedule", played.events(), ["submit t"])
            played.click("[data-link='U>T1'] .chip", 2)
            same("a double click", played.events(), ["submit t", "deliver U T1 1"])
            same("faults of scripts", played.page.faults(), [])

    def sizes(self):
        tried = 0
        for size in SIZES:
            for dark in (False, True):
                for behind in ("#example=rejected_read&do=graph", "#example=bridge&do=run", "#example=lost_packet&do=inside&e=7", "#example=undeclared&do=play"):
                    page = self.open(behind, size, dark)
                    self.ended(page)
                    page.wait("isForm() ? byId('output').textContent.length > 9 : view.run.count > 0", 60)
                    what = "%s at %d by %d" % (behind, *size)
                    same("wider than the window: " + what, page.tell("document.documentElement.scrollWidth > innerWidth"), False)
                    same("the theme: " + what, page.tell("document.documentElement.classList.contains('dark')"), dark)
                    same("faults: " + what, page.faults(), [])
                    page.close()
                    tried += 1
        return "%d pages" % tried

    # ---- Bounds. ----

    def policy(self):
        page = self.open()
        for what in FORBIDDEN:
            page.tell(POLICY_TRIED % what)
            same(what, page.tell("tried").split(" ")[0], "refused")
        page.close()
        return "%d things refused" % len(FORBIDDEN)

    def message(self):
        page = self.browser.open("about:blank#", *SIZE)
        page.ask("Page.addScriptToEvaluateOnNewDocument", source="WebAssembly.validate = () => false")
        page.go_to(self.address)
        same("the message", page.tell("!byId('cannot').hidden && [...document.querySelectorAll('.acts')].every(x => x.hidden)"), True)
        same("faults", page.faults(), [])
        page.close()
        return "the message is shown"

    def first(self):
        page = self.open()
        page.tell("byId('example').value = 'bank'; byId('example').dispatchEvent(new Event('change'))")
        begin = time.monotonic()
        page.click("#look-inside")
        page.wait("!isForm() && view.run.count > 0")
        first = time.monotonic() - begin
        page.click("#again")
        page.wait("isForm()")
        begin = time.monotonic()
        page.click("#look-inside")
        page.wait("!isForm() && view.run.count > 0")
        again = time.monotonic() - begin
        page.close()
        same("too slow", first > self.asked.seconds, False)
        return "bank is shown after %.1f s, and again after %.1f s" % (first, again)


class Reached(Exception):
    pass


class Until:
    """A browser whose pages stop a check where it comes to a script with some words: what follows is of the server."""

    def __init__(self, browser, words):
        self.browser, self.words = browser, words

    def __getattr__(self, name):
        return getattr(self.browser, name)

    def open(self, *words):
        page = self.browser.open(*words)
        tell = page.tell

        def told(script):
            if self.words in script:
                raise Reached
            return tell(script)
        page.tell = told
        return page


class Local(page_clicks.Served):
    """The playing form of sdd1.html in place of a served page."""

    def __init__(self, tests, browser, _programs, catalogue, workload, folder, size=SIZE):
        self.folder = os.path.join(folder, "downloads")
        os.makedirs(self.folder, exist_ok=True)
        browser.keep_downloads(self.folder)
        self.page = browser.open(tests.address, *size)
        self.page.wait("typeof kept === 'object' && kept.source !== ''")
        tests.fill(self.page, bytes_of(catalogue).decode(), bytes_of(workload).decode() if workload else "")
        self.page.click("#play")
        self.page.wait("!!view.play")
        self.settle()

    def __exit__(self, *_):
        self.page.close()


def main():
    parts = ["form", "stop", "clicks", "data", "pages", "sizes", "policy", "message", "first"]
    asked = parser(__doc__)
    asked.add_argument("page", metavar="PAGE")
    asked.add_argument("--program", metavar="COMMAND")
    asked.add_argument("--inside", metavar="COMMAND")
    asked.add_argument("--random", metavar="N", type=count, default=50)
    asked.add_argument("--seconds", metavar="N", type=float, default=float("inf"))
    asked.add_argument("--only", metavar="PART", nargs="+", choices=parts, default=parts)
    asked = asked.parse_args()
    if not os.path.isfile(asked.page):
        raise BadInput("%s: no such file" % asked.page)
    if not find_browser():
        print("skipped: there is no Chromium here (apt-get install chromium)")
        return 0
    bad = 0
    with tempfile.TemporaryDirectory(prefix="test-web-") as folder, Browser(folder) as browser:
        for part in asked.only:
            begin, tests = time.monotonic(), Tests(asked, folder, browser)
            try:
                print("%s: good, %s, %.1f s" % (part, getattr(tests, part)(), time.monotonic() - begin), flush=True)
            except (Wrong, Fault) as fault:
                bad += 1
                print("%s: WRONG: %s" % (part, fault), flush=True)
    return 1 if bad else 0


if __name__ == "__main__":
    start(main)
