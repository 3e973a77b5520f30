"""Schedules that are made with the mouse in a served page, and what a page is refused."""
import json
import os
import threading
import time

import sdd_path  # noqa: F401
from page_checks import Wrong, same
from sdd.bench.make_workload import write_workload
from sdd.view.game import Game
from sdd.view.play import Server
from sdd.view.states import read_parts, spelled

CLICKED = ["rejected_read", "held_write", "lost_packet", "undeclared"]


class Served:
    """A page of a server of its own."""

    def __init__(self, browser, programs, catalogue, workload, folder, size=(1600, 1000), dark=False):
        self.server = Server(Game(programs, catalogue, workload, "a test"), 0)
        threading.Thread(target=self.server.serve_forever, daemon=True).start()
        self.folder = os.path.join(folder, "downloads")
        os.makedirs(self.folder, exist_ok=True)
        browser.keep_downloads(self.folder)
        self.page = browser.open(self.server.address(), *size, dark)
        self.settle()

    def __enter__(self):
        return self

    def __exit__(self, *_):
        self.page.close()
        self.server.shutdown()
        self.server.server_close()

    def settle(self):
        """Waits until what was clicked is answered."""
        self.page.wait("view && !view.play.isBusy")

    def click(self, selector, count=1):
        self.page.click(selector, count)
        self.settle()

    def events(self):
        return self.page.tell("view.run.data.events")

    def reported_text(self):
        return self.page.tell("document.getElementById('reported').textContent")

    def fill(self, selector, text):
        self.page.tell("document.querySelector(%s).select()" % json.dumps(selector))
        self.page.type(text)

    def choose(self, selector, value):
        self.page.tell("(() => { const x = document.querySelector(%s); x.value = %s; x.dispatchEvent(new Event('change')); })()" % (
            json.dumps(selector), json.dumps(value)))

    def make(self, line):
        """An event of a schedule, made as a person makes it."""
        words = line.split(" ")
        if words[0] == "submit":
            self.choose("#unsubmitted", words[1])
            self.click("#submit")
        elif words[0] in ("deliver", "lose", "repeat"):
            self.choose_packet(*words[1:])
            self.click("#menu button[title='%s']" % line)
        elif words[0] == "resend":
            self.click("[data-link='%s>%s'] .from" % tuple(words[1:]))
        elif words[0] == "tick":
            self.fill("#site-%s .tick input" % words[1], words[2])
            self.click("#site-%s .tick button" % words[1])
        elif words[0] in ("down", "up"):
            self.click("#site-%s h2 button" % words[1])
        else:
            self.click("#" + words[0])

    def choose_packet(self, a, b, place):
        lane = "[data-link='%s>%s']" % (a, b)
        if int(place) > 6:
            self.click(lane + " .more")
        number = self.page.tell("document.querySelectorAll(%s)[%d].dataset.packet" % (json.dumps(lane + " .chip"), int(place) - 1))
        self.click("[data-packet='%s']" % number)

    def write(self, lines):
        """A transaction, typed into the form."""
        if not self.page.tell("!!document.querySelector('#form')"):
            self.click("#compose")
        name, at = lines[0].split(" ")[1:]
        self.fill("#txn-name", name)
        self.choose("#txn-site", at)
        self.fill("#txn-text", "\n".join(lines[1:-1]))

    def saved(self):
        path = os.path.join(self.folder, "workload")
        if os.path.exists(path):
            os.remove(path)
        self.click("#save")
        end = time.monotonic() + 20
        while not os.path.exists(path):
            if time.monotonic() > end:
                raise Wrong("no file was saved")
            time.sleep(0.05)
        return text_of(path)


def text_of(path):
    with open(path, encoding="utf-8", newline="") as f:
        return f.read()


def check_clicks(browser, programs, folder, examples):
    """Pairs of a name and a check."""
    for name in CLICKED:
        yield name, lambda name=name: whole_workload(browser, programs, folder, *examples[name])
    yield "the page at an earlier moment", lambda: earlier(browser, programs, folder, *examples["rejected_read"])
    yield "modules that go down", lambda: turned(browser, programs, folder, *examples["rejected_read"])
    yield "refusals", lambda: refusals(browser, programs, folder, *examples["rejected_read"])
    yield "16 by 16 sites", lambda: matrix(browser, programs, folder)


def whole_workload(browser, programs, folder, catalogue, workload):
    """From nothing to the example's workload: rows and transactions are typed, events are clicked."""
    want = text_of(workload)
    parts = read_parts(want)
    with Served(browser, programs, catalogue, None, folder) as served:
        served.click("#compose")
        for row in parts.rows:
            served.fill("#row-text", row)
            served.click("#add-row")
        for block in parts.transactions:
            served.write(block)
            served.click("#add")
        for k, line in enumerate(parts.events, 1):
            served.make(line)
            same("the schedule", served.events(), parts.events[:k])
        same("the saved workload", served.saved(), want)
        undo_and_redo(served, len(parts.rows) + len(parts.transactions) + len(parts.events))
        same("the workload after undo and redo", served.saved(), want)
        same("faults of scripts", served.page.faults(), [])
    return "%d events clicked" % len(parts.events)


def undo_and_redo(served, count):
    for _ in range(count):
        served.page.press("u")
        served.settle()
    same("the schedule after all is undone", served.events(), [])
    same("there is more to undo", served.page.tell("document.querySelector('#undo').disabled"), True)
    for _ in range(count):
        served.page.press("y")
        served.settle()


def earlier(browser, programs, folder, catalogue, workload):
    """To go on from within a settle cuts it there, and spells what had happened as events; undo brings it back."""
    want = read_parts(text_of(workload)).events
    with Served(browser, programs, catalogue, workload, folder) as served:
        before = served.page.tell("view.run.lines.map(x => x.do)")
        served.page.tell("view.go(%d)" % (len(want) + 3))
        served.click("#settle")
        same("the question", served.reported_text().startswith("The page shows an earlier moment"), True)
        same("the schedule before the question is answered", served.events(), want)
        served.click("#reported button")
        served.page.wait("view.run.data.events.at(-1) === 'settle' && !view.play.isBusy && view.run.data.events.length > %d" % len(want))
        same("the schedule", served.events(), before[:len(want) + 3] + ["settle"])
        same("the run", served.page.tell("view.run.lines.map(x => x.do)"), before)
        served.page.press("u")
        served.settle()
        served.page.press("u")
        served.settle()
        same("the schedule after undo", served.events(), want)
        served.page.tell("window.isOld = true; location.reload()")
        served.page.wait("!window.isOld && typeof view === 'object' && view && !view.play.isBusy && view.run.count > 0")
        same("the schedule after a reload", served.events(), want)
        same("the address", "token" in served.page.tell("location.href"), False)
        served.page.press("Home")
        served.choose("#unsubmitted", "close")
        served.click("#submit")
        served.click("#reported button")
        served.page.wait("view.run.data.events.length === 1 && !view.play.isBusy")
        same("the schedule from the beginning on", served.events(), ["submit close"])
        served.click("#anew")
        same("the schedule that begins anew", served.events(), [])
        same("what can be submitted", served.page.tell("[...document.querySelectorAll('#unsubmitted option')].map(x => x.textContent)"), ["sell", "close"])


def turned(browser, programs, folder, catalogue, workload):
    """Modules of both kinds are taken down and up; what is submitted to one that is down queues."""
    lines = {"down T1": ["site-T1"], "submit sell": ["site-T1"], "up T1": [], "down D1": ["site-D1"], "up D1": []}
    with Served(browser, programs, catalogue, workload, folder) as served:
        served.click("#anew")
        for k, (line, down) in enumerate(lines.items(), 1):
            served.make(line)
            same("the schedule", served.events(), list(lines)[:k])
            same("the modules that are down", served.page.tell("[...document.querySelectorAll('.site.down')].map(x => x.id)"), down)
            same("what queues at T1", served.page.tell("document.querySelectorAll('#site-T1 .queued').length"), int(line == "submit sell"))
        same("what runs at T1", served.page.tell("document.querySelector('#site-T1 .attempt').textContent.split(' ')[0]"), "sell#1")


def refusals(browser, programs, folder, catalogue, workload):
    """What the program refuses is reported with the line that was typed, and changes nothing."""
    with Served(browser, programs, catalogue, None, folder) as served:
        served.write(["txn t T1", "query 1.number from seat", "put seat 1", "done"])
        served.click("#add-submit")
        same("what is reported", served.reported_text().startswith("line 3, `put seat 1`: WrongKind: seat has "), True)
        served.fill("#txn-text", "query 1.number from seats")
        served.click("#add")
        same("what is reported", served.reported_text().startswith("line 2, `query 1.number from seats`: UnknownName"), True)
        same("the workload", served.saved(), "end\n")
        served.fill("#txn-text", "query 1.number from seat")
        served.click("#add-submit")
        same("what is reported of the class", "runs undeclared" in served.reported_text(), True)
        served.fill("#site-T1 .tick input", "0")
        served.click("#site-T1 .tick button")
        same("the schedule", served.events(), ["submit t"])
        served.click("[data-link='U>T1'] .chip", 2)
        same("a double click", served.events(), ["submit t", "deliver U T1 1"])
        other = Served(browser, programs, catalogue, workload, folder)
        with other:
            other.page.tell("view.play.token = 'none'; view.play.change({do: 'undo'})")
            other.settle()
            same("what is reported without the token", other.reported_text().startswith("no token"), True)
            same("the schedule", len(other.events()), len(read_parts(text_of(workload)).events))


def matrix(browser, programs, folder):
    """A packet of a cell is chosen and delivered."""
    catalogue, workload = write_workload(folder, "classes", 3)
    with open(workload, encoding="utf-8") as f:
        parts = read_parts(f.read())
    parts.events.clear()
    with open(workload, "w", encoding="utf-8", newline="\n") as f:
        f.write(spelled(parts))
    with Served(browser, programs, catalogue, workload, folder) as served:
        served.click("#submit")
        link = served.page.tell("view.run.packets[0].link").split(">")
        served.click("[data-cell='%s %s']" % tuple(link))
        served.click("#selection .chip")
        served.click("#selection .events button")
        same("the schedule", served.events()[1:], ["deliver %s %s 1" % tuple(link)])
