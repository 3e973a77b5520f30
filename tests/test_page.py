#!/usr/bin/env python3
"""Tries the pages of sdd page and sdd play in a headless Chromium.

    tests/test_page.py [--program COMMAND] [--inside COMMAND] [--random N] [--seed K] [--browser COMMAND] [--only PART ..] [--shots FOLDER]

Parts: `pages` opens the pages of examples/, `random` those of N random runs (50 without --random), from
seed K on, and `large` one of 16 by 16 sites. Each goes through all events, compares what is shown with
what the text of the events says, goes back, and compares what is shown at the end with the report.
`clicks` makes schedules with the mouse, which must be the workloads of examples, byte for byte. `room` looks
at pages as large as a projector, a laptop and a phone show them, light and dark, makes schedules by keyboard
alone, and measures how long a key takes in a run of 7,000 events; with --shots FOLDER it keeps pictures.
`pictures`, which has to be named, writes those of docs/pictures anew.
Where there is no Chromium the script says so, and ends with status 0. Programs are found as sdd page
finds them.
"""
import os
import random
import tempfile
import time

import sdd_path  # noqa: F401
from browser import Browser, Fault, find_browser
from page_checks import Wrong, check_page
from page_clicks import check_clicks
from page_room import Room
from random_calls import run_call
from sdd.bench.make_workload import write_workload
from sdd.command import count, parser, start
from sdd.model.files import BadInput
from sdd.programs import find_programs
from sdd.view.page import SHOWN, add_programs, assembled, name_of
from sdd.view.states import run_data

EXAMPLES = os.path.join(os.path.dirname(os.path.abspath(__file__)), "..", "examples")
PICTURES = os.path.join(EXAMPLES, "..", "docs", "pictures")
ODD_CATALOGUE = """tms = 1
dms = 1
[[relation]]
name = "toString"
columns = [{name = "text", kind = "text"}, {name = "key", kind = "int"}]
key = "key"
[[fragment]]
name = "hasOwnProperty"
relation = "toString"
copies = [1]
[[class]]
name = "constructor"
tm = 1
reads = [{fragment = "hasOwnProperty", at = 1}]
writes = ["hasOwnProperty"]
[[class]]
name = "A2345678901234567890123456789012"
tm = 1
"""
ODD_WORKLOAD = """row toString "</script><b>bold</b>" 9223372036854775807
row toString "a \\"quoted\\" \\\\ text" -9223372036854775808
row toString "%s" 9007199254740993
txn valueOf T1
query 1.text 1.key from toString
put toString "<!--\u2028 \U0001f600" 9007199254740992
delete toString where 1.key = 9007199254740993
done
submit valueOf
deliver T1 D1 1
repeat D1 T1 2
lose D1 T1 1
settle
end
""" % ("long " * 51)


def example_files():
    """The examples that have a workload."""
    for name in sorted(os.listdir(EXAMPLES)):
        files = [os.path.join(EXAMPLES, name, x) for x in ("catalogue.toml", "workload")]
        if all(map(os.path.exists, files)):
            yield name, files


def written(folder, name, *texts):
    """The paths of a catalogue and a workload."""
    files = [os.path.join(folder, x + name) for x in ("catalogue-", "workload-")]
    for path, text in zip(files, texts):
        with open(path, "wb") as f:
            f.write(text)
    return files


def pictured(folder):
    """The pictures of the documents: run, event, size and what is selected."""
    examples = dict(example_files())
    choose = "const x = view.run.packets.find(x => view.state.flight(x.link).includes(x.id) && x.n); view.select({packet: x.id, link: x.link, n: x.n})"
    yield "rejected_read", examples["rejected_read"], 4, (1180, 720, False), "0"
    yield "lost_packet", examples["lost_packet"], 7, (1180, 720, True), "{ %s }" % choose
    yield "many_sites", write_workload(folder, "classes", 100), 300, (1180, 820, False), "0"


class Tests:
    def __init__(self, asked, folder, browser):
        self.programs, self.folder, self.browser = find_programs(asked.program, asked.inside), folder, browser
        self.shots, self.seeds, self.bad, self.tried, self.events = asked.shots, range(asked.seed, asked.seed + asked.random), 0, 0, 0

    def written_page(self, name, data):
        path = os.path.join(self.folder, "page.html")
        with open(path, "w", encoding="utf-8", newline="\n") as f:
            f.write(assembled(name, data, SHOWN + ["start.js"], ["style.css"])[0])
        return path

    def page(self, name, files, sizes):
        """Tries the page of a run; the time that it takes to open."""
        data = run_data(self.programs, *files, name_of(files[1]))
        path = self.written_page(name, data)
        for width, height, dark in sizes:
            self.tell(name, lambda: check_page(self.browser, path, data, (width, height, dark)))
        self.events += len(data["lines"])

    def tell(self, name, check):
        self.tried += 1
        begin = time.monotonic()
        try:
            reported = check()
            print("%s: good%s, %.1f s" % (name, reported and ", " + reported or "", time.monotonic() - begin), flush=True)
        except (Wrong, Fault, BadInput) as fault:
            self.bad += 1
            print("%s: WRONG: %s" % (name, fault), flush=True)

    def pages(self):
        for name, files in example_files():
            self.page(name, files, [(1600, 1000, False), (1280, 800, True)] if name != "bank" else [(1600, 1000, True)])
        odd = written(self.folder, "odd", ODD_CATALOGUE.encode(), ODD_WORKLOAD.encode())
        self.page("names and texts that are no markup", odd, [(1280, 800, False)])

    def random(self):
        for seed in self.seeds:
            drawn = run_call(random.Random(seed)).files
            self.page("seed %d" % seed, written(self.folder, str(seed), drawn["cat"], drawn["work"]), [(1600, 1000, False)])

    def large(self):
        self.page("16 by 16 sites", write_workload(self.folder, "classes", 100), [(1600, 1000, False)])

    def pictures(self):
        for name, files, event, size, select in pictured(self.folder):
            page = self.browser.open("file://" + self.written_page(name, run_data(self.programs, *files, name)) + "#e=%d" % event, *size)
            page.tell(select)
            page.picture(os.path.join(PICTURES, name + ".png"))
            page.close()

    def clicks(self):
        for name, check in check_clicks(self.browser, self.programs, self.folder, dict(example_files())):
            self.tell("clicks of " + name, check)

    def room(self):
        if self.shots:
            os.makedirs(self.shots, exist_ok=True)
        for name, check in Room(self.browser, self.programs, self.folder, dict(example_files()), self.written_page, self.shots).checks():
            self.tell(name, check)


def main():
    asked, parts = parser(__doc__), ["pages", "random", "large", "clicks", "room", "pictures"]
    add_programs(asked)
    asked.add_argument("--random", metavar="N", type=count, default=50, help="how many random runs")
    asked.add_argument("--seed", metavar="K", type=count, default=0, help="the first seed")
    asked.add_argument("--shots", metavar="FOLDER", help="where `room` keeps pictures")
    asked.add_argument("--browser", metavar="COMMAND", help="Chromium, where it isn't found by its name")
    asked.add_argument("--only", metavar="PART", nargs="+", choices=parts, default=parts[:-1], help="these parts alone: " + " ".join(parts))
    asked = asked.parse_args()
    if not find_browser(asked.browser):
        if asked.browser:
            raise BadInput("no program %s" % asked.browser)
        print("skipped: there is no Chromium here (apt-get install chromium)")
        return 0
    with tempfile.TemporaryDirectory(prefix="test-page-") as folder, Browser(folder, asked.browser) as browser:
        tests = Tests(asked, folder, browser)
        for part in asked.only:
            getattr(tests, part)()
    print("%d tried, %d events in pages, %d wrong" % (tests.tried, tests.events, tests.bad))
    return 1 if tests.bad else 0


if __name__ == "__main__":
    start(main)
