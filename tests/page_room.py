"""The page for a room: whole at the sizes of projectors, laptops and phones, light and dark; by keyboard alone; and fast."""
import os

import sdd_path  # noqa: F401
from page_checks import Wrong, same
from page_clicks import Served
from sdd.bench.make_workload import write_workload
from sdd.view.states import run_data

SIZES = [(1024, 768), (1440, 900), (390, 844)]
SHOWN = ["rejected_read", "held_write", "lost_packet", "undeclared", "two_protocols"]
KINDS = ["READ", "READY", "FETCH", "VALUES", "REDUCE", "REDUCED", "SHIP", "ROWS", "WRITE", "NULL", "ASK", "REJECT", "HOLD", "HELD", "DONE", "RELEASE", "ack", "passed"]
MOST_MS, PRESSED = 50, 60       # of the processor, since by the clock it depends on what else the machine does
CUT = """(() => {
  const cut = [], inside = (node, box) => { const r = node.getBoundingClientRect(); return r.width === 0 || (r.left >= box.left - 1 && r.right <= box.right + 1); };
  const whole = {left: 0, right: innerWidth}, map = document.getElementById("map").getBoundingClientRect();
  if (document.documentElement.scrollWidth > innerWidth) cut.push("the page is wider than the window");
  for (const x of document.querySelectorAll("header button, header span, header input")) if (!inside(x, whole)) cut.push("header: " + (x.id || x.textContent));
  for (const x of document.querySelectorAll("#map .site")) if (!inside(x, map)) cut.push(x.id);
  for (const x of document.querySelectorAll("#map h2, #map .passed, #map .pipe-class, #map .chip")) if (!inside(x, x.closest(".site").getBoundingClientRect())) cut.push(x.textContent);
  for (const x of document.querySelectorAll("aside section")) if (!inside(x, whole)) cut.push(x.textContent.slice(0, 40));
  const legend = [...document.querySelectorAll("#legend .chip")].filter(x => x.getBoundingClientRect().height > 0);
  if (legend.length < 8) cut.push("the legend has " + legend.length + " kinds");
  return cut;
})()"""
RED = """(() => {
  const probe = document.createElement("i"), odd = [];
  probe.style.setProperty("color", "var(--bad)");
  document.body.append(probe);
  const red = getComputedStyle(probe).color, waits = view.run.dms.some(dm => (view.state.site(dm).heads || []).some(head => head.waits));
  probe.remove();
  for (const x of document.querySelectorAll("body *")) {
    const style = getComputedStyle(x), own = [...x.childNodes].some(y => y.nodeType === 3 && y.textContent.trim());
    const isRed = own && style.color === red && x.namespaceURI.endsWith("xhtml") || x instanceof SVGElement && x.tagName !== "g" && (style.fill === red && x.tagName === "text" || style.stroke === red);
    if (isRed && (/\\b(Lost|REJECTED|reject|DOWN)\\b/.test(x.textContent) || !x.closest(".bad, .state, .wanted, .mark-wait, #waits" + (waits ? ", #graph" : "")))) odd.push(x.textContent || x.tagName);
  }
  return odd;
})()"""
TOOK = """(() => {
  const took = [];
  for (let k = 0; k < %d; k++) {
    const begin = performance.now();
    document.body.dispatchEvent(new KeyboardEvent("keydown", {key: "ArrowRight", bubbles: true}));
    document.body.offsetHeight;
    took.push(performance.now() - begin);
  }
  return took.sort((a, b) => a - b);
})()"""
COVERED = """(() => [...document.querySelectorAll("#map [data-packet]")].filter(x => !x.classList.contains("selected")).filter(x => {
  const r = x.getBoundingClientRect(), menu = document.getElementById("menu").getBoundingClientRect();
  return r.left < menu.right && menu.left < r.right && r.top < menu.bottom && menu.top < r.bottom;
}).map(x => x.textContent))()"""


class Room:
    """The checks; `write_page` gives the path of the page of a run."""

    def __init__(self, browser, programs, folder, examples, write_page, pictures=None):
        self.browser, self.programs, self.folder, self.examples, self.write_page, self.pictures = browser, programs, folder, examples, write_page, pictures

    def checks(self):
        """Pairs of a name and a check."""
        for size in SIZES:
            for dark in (False, True):
                words = "%d x %d, %s" % (*size, "dark" if dark else "light")
                yield words, lambda size=size, dark=dark: self.whole(size, dark)
                yield "by keyboard alone, " + words, lambda size=size, dark=dark: self.keyboard(size, dark)
        yield "keys of a page", self.keys
        yield "SQL in the form", self.sql
        yield "a menu covers no packet", self.menus
        yield "a key in a run of 7,000 events", self.fast

    def open(self, name, size=SIZES[1], dark=False):
        data = run_data(self.programs, *self.examples[name], name)
        return self.browser.open("file://" + self.write_page(name, data), *size, dark), data

    def picture(self, page, name):
        if self.pictures:
            page.picture(os.path.join(self.pictures, name + ".png"))

    def whole(self, size, dark):
        """Nothing is cut off at any event; red is for waits; each copy has the names of its columns; each message a sentence."""
        for name in SHOWN:
            page, data = self.open(name, size, dark)
            columns = {x["name"]: " ".join(x["columns"]) for x in data["relations"]}
            for event in range(len(data["lines"]) + 1):
                page.tell("view.go(%d)" % event)
                same("%s, event %d: what is cut off" % (name, event), page.tell(CUT), [])
                same("%s, event %d: red that is no wait" % (name, event), page.tell(RED), [])
                if event == min(6, len(data["lines"])):
                    self.picture(page, "%s_%d%s" % (name, size[0], "_dark" if dark else ""))
            same("columns", page.tell("[...document.querySelectorAll('.copy .columns-of')].map(x => x.textContent)"),
                 [columns[x["relation"]] for at in range(data["first"]["dms"]) for x in data["fragments"]
                  if any(c["at"] == "D%d" % (at + 1) and c["fragment"] == x["name"] for c in data["first"]["copies"])])
            same("packets without a sentence", page.tell("view.run.packets.filter(x => /wasn't reported/.test(describePacket(view.run, x))).length"), 0)
            same("faults of scripts", page.faults(), [])
            page.close()

    def keys(self):
        page, data = self.open("rejected_read")
        page.press("?")
        shown = page.tell("document.getElementById('help').open ? document.getElementById('help').innerText : ''")
        same("kinds that the help leaves out", [x for x in KINDS if x not in shown], [])
        self.picture(page, "help")
        page.press("?")
        same("the help is closed by ? again", page.tell("document.getElementById('help').open"), False)
        page.press("?")
        page.press("Escape")
        page.wait("!document.getElementById('help').open", 5)
        page.press("/")
        same("/ leads to the field", page.tell("document.activeElement.id"), "find")
        name = data["order"][0]
        page.type(name)
        mine = sorted({int(x.split(" ")[0]) for x in data["records"] if x.split(" ")[2].split("#")[0] == name})
        for event in mine + mine[:1]:
            page.press("Enter")
            same("the next event of " + name, page.tell("view.event"), event)
        page.press("Escape")
        page.press("End")
        same("its answer", page.tell("document.getElementById('selection').innerText.includes('Its answer: ')"), bool(dict(data["replies"])[name]) or True)
        same("answers", page.tell("document.querySelectorAll('#answers .answer').length"), min(8, len(data["order"])))
        page.press("Home")
        page.press("+")
        page.press("+")
        page.press(" ")
        page.wait("view.event > 3", 20)
        page.press(" ")
        stopped = page.tell("view.event")
        same("space stops it", page.tell("new Promise(done => setTimeout(() => done(view.event), 500))"), stopped)
        page.close()

    def keyboard(self, size, dark):
        """A reject is made in the served page with no mouse; Ctrl-Z takes an event back."""
        with Served(self.browser, self.programs, *self.examples["rejected_read"], self.folder, size, dark) as served:
            page, wanted = served.page, [x for x in self.workload_events("rejected_read") if x != "settle"]
            self.press_button(served, "#anew")
            for line in wanted:
                self.by_keys(served, line)
            same("the schedule", served.events(), wanted)
            page.press("z", ctrl=True)
            served.settle()
            same("the schedule behind Ctrl-Z", served.events(), wanted[:-1])
            page.press("y", ctrl=True)
            served.settle()
            page.press("s")
            served.settle()
            same("the schedule", served.events(), wanted + ["settle"])
            same("what is cut off", page.tell(CUT), [])
            self.picture(page, "played_%d%s" % (size[0], "_dark" if dark else ""))

    def workload_events(self, name):
        return run_data(self.programs, *self.examples[name], name)["events"]

    def tab_to(self, page, selector):
        """Presses Tab until the element has the focus."""
        for _ in range(150):
            if page.tell("document.activeElement.matches(%r)" % selector):
                return
            page.press("Tab")
        raise Wrong("Tab doesn't lead to " + selector)

    def press_button(self, served, selector):
        self.tab_to(served.page, selector)
        served.page.press("Enter")
        served.settle()

    def by_keys(self, served, line):
        page, words = served.page, line.split(" ")
        if words[0] == "submit":
            self.tab_to(page, "#unsubmitted")
            for _ in range(40):
                if page.tell("document.activeElement.value") == words[1]:
                    break
                page.press("ArrowDown")
            self.press_button(served, "#submit")
        elif words[0] in ("deliver", "lose", "repeat"):
            number = page.tell("document.querySelectorAll(\"[data-link='%s>%s'] .chip\")[%d].dataset.packet" % (words[1], words[2], int(words[3]) - 1))
            self.press_button(served, "[data-packet=\"%s\"]" % number)
            page.press(words[0][0])
            served.settle()
        elif words[0] == "tick":
            self.tab_to(page, "#site-%s .tick input" % words[1])
            page.tell("document.activeElement.select()")
            page.type(words[2])
            self.press_button(served, "#site-%s .tick button" % words[1])
        else:
            raise Wrong("no keys for " + line)

    def sql(self):
        with Served(self.browser, self.programs, *self.examples["bridge"], self.folder) as served:
            served.write(["txn mine T1", "UPDATE price SET cents = cents + 5 WHERE item = 1;", "SELECT cents", "FROM price WHERE item <= 3;", "done"])
            self.picture(served.page, "form")
            served.click("#add")
            same("the statements", served.page.tell("view.run.transactions.get('mine').lines"),
                 ["update price set 1.cents += 5 where 1.item = 1", "query 1.cents from price where 1.item <= 3"])
            served.write(["txn other T1", "SELECT cents FROM price ORDER BY item", "done"])
            served.click("#add")
            same("the refusal", served.reported_text(), "line 1, `SELECT cents FROM price ORDER BY item`: answers are sets, there is no ORDER BY")

    def menus(self):
        for name in ("rejected_read", "undeclared"):
            with Served(self.browser, self.programs, *self.examples[name], self.folder, (1024, 768)) as served:
                for event in range(1, served.page.tell("view.run.count") + 1):
                    served.page.tell("view.go(%d)" % event)
                    for number in served.page.tell("[...document.querySelectorAll('#map [data-packet]')].map(x => x.dataset.packet)"):
                        served.page.tell("view.select({packet: %s, link: view.run.packets[%s].link, n: view.run.packets[%s].n})" % (number, number, number))
                        same("%s, event %d: covered by the menu of packet %s" % (name, event, number), served.page.tell(COVERED), [])

    def fast(self):
        files = write_workload(os.path.join(self.folder, "long"), "smallbank", 200, design="first")
        data = run_data(self.programs, *files, "long")
        if len(data["lines"]) < 7000:
            raise Wrong("the run has %d events" % len(data["lines"]))
        page = self.browser.open("file://" + self.write_page("long", data), *SIZES[1])
        page.tell("view.go(3500)")
        before = page.processor_time()
        took = page.tell(TOOK % PRESSED)
        mean = (page.processor_time() - before) / PRESSED * 1000
        page.close()
        if mean > MOST_MS:
            raise Wrong("a key takes %.0f ms of a processor on the average" % mean)
        return "%d events; a key takes %.1f ms of a processor, on the average of %d; by the clock %.1f, %.1f at most" % (
            len(data["lines"]), mean, PRESSED, took[PRESSED // 2], took[-1])
