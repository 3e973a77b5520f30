"""sdd1.html as it is opened from disk in a headless Chromium, and the checks of its form."""
import json
import os
import random
import sys
import time

HERE = os.path.dirname(os.path.abspath(__file__))
sys.path.insert(0, os.path.join(HERE, ".."))

from repository import EXAMPLES  # noqa: E402

from browser import Fault  # noqa: E402
from page_checks import Wrong, same  # noqa: E402
from sdd.bench.make_workload import write_workload  # noqa: E402
from sdd.programs import find_programs  # noqa: E402
from sdd.view import states  # noqa: E402

SIZE = (1440, 900)
SIZES = [(390, 844), (1024, 768), (1440, 900)]


def text_of(*path):
    with open(os.path.join(*path), encoding="utf-8", newline="") as f:
        return f.read()


def example(name):
    return [text_of(EXAMPLES, name, x) for x in ("catalogue.toml", "workload")]


def wait_for_file(path):
    end = time.monotonic() + 20
    while not os.path.exists(path) or not os.path.getsize(path):
        if time.monotonic() > end:
            raise Wrong("no file %s was saved" % path)
        time.sleep(0.05)
    return text_of(path)


def wait_through(page, script):
    """Waits for what is true after the page was loaded anew; while that is under way nothing can be asked."""
    end = time.monotonic() + 60
    while True:
        try:
            return page.wait(script)
        except Fault:
            if time.monotonic() > end:
                raise
            time.sleep(0.1)


class Opened:
    """The page of a command line, in a browser that is there."""

    def __init__(self, asked, folder, browser):
        self.asked, self.folder, self.browser = asked, folder, browser
        self.programs = find_programs(asked.program, asked.inside)
        self.address = "file://" + os.path.abspath(asked.page)
        self.downloads = os.path.join(folder, "saved")
        os.makedirs(self.downloads, exist_ok=True)

    def open(self, behind="", size=SIZE, dark=False):
        self.browser.keep_downloads(self.downloads)
        page = self.browser.open(self.address + behind, *size, dark)
        page.wait("typeof kept === 'object' && kept.source !== ''")
        return page

    def fill(self, page, catalogue, workload):
        page.tell("setTexts(%s, %s); noteForm()" % (json.dumps(catalogue), json.dumps(workload)))

    def ended(self, page):
        """Waits until nothing runs."""
        page.wait("!progress.running && !(view.play && view.play.isBusy)", 120)

    def status(self, page):
        return page.tell("byId('status').textContent")

    def saved(self, page, selector, name):
        path = os.path.join(self.downloads, name)
        if os.path.exists(path):
            os.remove(path)
        page.click(selector)
        return wait_for_file(path)


class FormChecks(Opened):
    """What a person does in the form."""

    def recipe(self, page):
        """What the page tells to do in five minutes, as a person does it: a read is rejected."""
        page.click("summary")
        page.click("#play-anew")
        page.wait("!isForm()")
        self.ended(page)
        for name in ("sell", "close"):
            page.tell("(() => { const x = byId('unsubmitted'); x.value = '%s'; x.dispatchEvent(new Event('change')); })()" % name)
            page.click("#submit")
            self.ended(page)
        for label in ("WRITE 66", "READ 65"):
            number = page.tell("[...document.querySelectorAll('#map .lane .chip')].find(x => x.textContent.includes('%s')).dataset.packet" % label)
            page.click("[data-packet='%s']" % number)
            page.click("#menu button")
            self.ended(page)
        same("what is said", "REJECTED" in page.tell("byId('sentences').textContent"), True)
        page.click("#settle")
        self.ended(page)
        events = ["submit sell", "submit close", "deliver T2 D1 1", "deliver T1 D1 1", "settle"]
        same("the saved schedule", states.read_parts(self.saved(page, "#save", "workload")).events, events)

    def reports(self, page):
        """Each button prints what the native program prints; an example is chosen as a person does it."""
        for name in ("bridge", "new_kind"):
            page.tell("byId('example').value = %s; byId('example').dispatchEvent(new Event('change'))" % json.dumps(name))
            same("the texts", page.tell("texts()"), example(name))
            files = [os.path.join(EXAMPLES, name, x) for x in ("catalogue.toml", "workload")]
            for word in ("run", "plain", "table", "advise", "check"):
                page.click("[data-words=%s]" % word)
                self.ended(page)
                want = self.programs.tell([word] + files[:2 if word in ("run", "plain") else 1])
                same("%s of %s" % (word, name), page.tell("byId('output').textContent"), want)
            page.click("#show-graph")
            self.ended(page)
            same("graph of " + name, page.tell("byId('output').textContent"), self.programs.tell(["graph", files[0]]))
            same("nodes drawn", page.tell("document.querySelectorAll('#drawing .node').length === readToml(texts()[0]).class.length"), True)
        self.fill(page, *map(text_of, write_workload(self.folder, "classes", 3)))
        page.click("#show-graph")
        page.wait("!progress.running && !!document.querySelector('#drawing canvas')")
        page.click("#drawing button")
        same("what the colours mean", page.tell("document.querySelector('#drawing button').textContent"), "colour: block")
        self.fill(page, *example(name))
        page.click("#show-graph")
        self.ended(page)
        same("the saved text", self.saved(page, "#output-save", "graph.txt"), self.programs.tell(["graph", files[0]]))

    def refused(self, page):
        """A refusal shows its line, which is selected; one of a catalogue shows its part."""
        catalogue, workload = example("rejected_read")
        misspelled, misled = workload.replace("put seat 7", "put seats 7"), workload.replace("deliver T2 D1 1", "deliver T2 D2 1")
        gap = catalogue.replace("to = 99", "to = 98")
        cases = [(catalogue, misspelled, "#look-inside", "workload: line 7: UnknownName", "workload", 'put seats 7 "closed"'),
                 (catalogue, misspelled, "#play-anew", "workload: line 7: UnknownName", "workload", 'put seats 7 "closed"'),
                 (catalogue, misled, "[data-words=run]", "workload: line 11: BadEvent", "workload", "deliver T2 D2 1"),
                 (gap, workload, "[data-words=check]", "catalogue: fragment 2: RangeGap", "catalogue", '[[fragment]]\nname = "sold"')]
        for given_catalogue, given_workload, selector, line, area, quoted in cases:
            self.fill(page, given_catalogue, given_workload)
            page.click(selector)
            self.ended(page)
            same("the line that is shown", self.status(page)[:len(line)], line)
            same("the line that is quoted", page.tell("document.querySelector('.quoted').textContent").startswith(quoted), True)
            selected = page.tell("(() => { const x = byId('%s-text'); return x.value.slice(x.selectionStart, x.selectionEnd); })()" % area)
            same("the line that is selected", selected.startswith(quoted), True)
            same("what it means", "It means:" in self.status(page) and "What helps:" in self.status(page), True)

    def files(self, page):
        catalogue, workload = example("two_protocols")
        paths = [os.path.join(EXAMPLES, "two_protocols", x) for x in ("catalogue.toml", "workload")]
        root = page.ask("DOM.getDocument")["root"]["nodeId"]
        for what, path in zip(("catalogue", "workload"), paths):
            node = page.ask("DOM.querySelector", nodeId=root, selector="#%s-file" % what)["nodeId"]
            page.ask("DOM.setFileInputFiles", nodeId=node, files=[path])
        page.wait("texts()[0] === %s && texts()[1] === %s" % (json.dumps(catalogue), json.dumps(workload)))
        same("the example's name", page.tell("byId('example').value"), "two_protocols")
        same("the saved catalogue", self.saved(page, "#catalogue-save", "catalogue.toml"), catalogue)
        same("the saved workload", self.saved(page, "#workload-save", "workload"), workload)
        path = os.path.join(self.folder, "returns")
        with open(path, "wb") as f:
            f.write(workload.replace("\n", "\r\n").encode())
        page.ask("DOM.setFileInputFiles", nodeId=node, files=[path])
        page.wait("byId('status').textContent.includes('carriage returns')")

    def addresses(self, page):
        """A run is shared as an address, and one that is too long is refused; a broken one says so."""
        catalogue, workload = example("held_write")
        workload = workload.replace("\nend\n", "\nsettle\nend\n")
        self.fill(page, catalogue, workload)
        page.click("#share")
        page.wait("!byId('shared').hidden")
        shared = page.tell("byId('shared-address').value")
        other = self.browser.open(shared, *SIZE)
        other.wait("!document.body.classList.contains('starting')")
        same("the shared texts", other.tell("texts()"), [catalogue, workload])
        same("the shared run", other.tell("view.run.data.events"), states.read_parts(workload).events)
        other.close()
        broken = self.browser.open(shared.replace("run=", "run=xx"), *SIZE)
        broken.wait("byId('status').textContent.includes('whole')")
        same("faults of scripts", broken.faults(), [])
        broken.close()
        drawn = random.Random(1)
        self.fill(page, catalogue, "".join("row a %d\n" % drawn.randrange(2**60) for _ in range(2000)) + "end\n")
        page.click("#share")
        page.wait("byId('status').textContent.includes('too long for an address')")

    def reload_and_back(self, page):
        """What was typed or played stands there after a reload; the browser's way back leads to the form."""
        catalogue, workload = example("rejected_read")
        self.fill(page, catalogue, workload.replace("settle\n", ""))
        page.wait("location.hash.startsWith('#run=')")
        page.click("#play")
        page.wait("!isForm()")
        self.ended(page)
        page.click("#settle")
        self.ended(page)
        page.wait("kept.source !== '' && view.run.data.events.at(-1) === 'settle'")
        time.sleep(0.3)
        page.tell("window.isOld = true; setTimeout(() => location.reload(), 0)")
        wait_through(page, "!window.isOld && typeof view === 'object' && !!view && !isForm() && !!view.play && !view.play.isBusy")
        same("the schedule after a reload", page.tell("view.run.data.events"), states.read_parts(workload).events)
        page.click("#again")
        page.wait("isForm()")
        same("the workload in the form", page.tell("texts()[1]"), workload)
        page.click("#look-inside")
        page.wait("!isForm()")
        page.tell("history.back()")
        page.wait("isForm()")
        page.tell("history.forward()")
        page.wait("!isForm() && view.run.count > 0")
        same("the run that is shown again", page.tell("view.run.data.events"), states.read_parts(workload).events)
        page.tell("location.hash = 'example=bridge&do=inside&e=3'")
        page.wait("!isForm() && view.run.data.name === 'bridge' && view.event === 3")
        page.tell("history.back()")
        page.wait("isForm() && byId('example').value === 'bridge'")

    def keys(self, page):
        """From the form to a run and through it without a mouse."""
        page.tell("byId('workload-text').focus()")
        page.press("End")
        same("keys of a run in the form", page.tell("isForm() && view.event"), 0)
        page.ask("Input.dispatchKeyEvent", type="keyDown", key="Enter", windowsVirtualKeyCode=13, modifiers=2)
        page.wait("!isForm()")
        page.press("End")
        same("the last event", page.tell("view.event === view.run.count && view.event > 0"), True)
        seen = set()
        for _ in range(30):
            page.ask("Input.dispatchKeyEvent", type="rawKeyDown", key="Tab", windowsVirtualKeyCode=9)
            page.ask("Input.dispatchKeyEvent", type="keyUp", key="Tab", windowsVirtualKeyCode=9)
            seen.add(page.tell("document.activeElement?.id"))
        same("buttons that Tab reaches", {"again", "next", "last", "theme"} <= seen, True)


class StopChecks(Opened):
    """Runs that take long."""

    def stop(self):
        page, files = self.open(), write_workload(self.folder, "classes", 2048)
        self.fill(page, *map(text_of, files))
        for way in (lambda: page.click("#stop"), lambda: page.press("Escape")):
            page.click("#look-inside")
            page.wait("!byId('progress').hidden && /[0-9.]+ s/.test(byId('progress-text').textContent)")
            way()
            self.ended(page)
            same("what is said", self.status(page), "stopped")
            same("the progress line", page.tell("byId('progress').hidden"), True)
        page.click("#play-anew")
        page.wait("!byId('progress').hidden", 60)
        page.click("#stop")
        self.ended(page)
        self.stop_click(page)
        same("faults of scripts", page.faults(), [])
        page.close()
        return "stopped three times in the form, once while clicking"

    def stop_click(self, page):
        """A settle that takes long is stopped: the schedule is what it was, and what is clicked next is done."""
        catalogue, workload = map(text_of, write_workload(self.folder, "classes", 512))
        parts = states.read_parts(workload)
        parts.events[:] = ["submit " + x[0].split(" ")[1] for x in parts.transactions]
        self.fill(page, catalogue, states.spelled(parts))
        page.click("#play")
        page.wait("!isForm()", 120)
        self.ended(page)
        page.click("#settle")
        page.wait("!byId('progress').hidden", 60)
        page.click("#stop")
        self.ended(page)
        same("what is said", page.tell("byId('reported').textContent"), "stopped")
        same("the schedule", page.tell("view.run.data.events"), parts.events)
        page.click(".tick button")
        self.ended(page)
        same("the schedule", len(page.tell("view.run.data.events")), len(parts.events) + 1)
