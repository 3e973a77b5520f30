"""What a page shows, read from its elements, beside what the text of the events and the report say."""
import json
import re

import sdd_path  # noqa: F401
from sdd.view.replay import Reader

EACH = 300                  # of a run with more events that many are drawn; the flights are compared at all
BATCH = 500
MOST_SHOWN = 6              # packets of a lane
SHOW = """(() => {
  const texts = (node, what) => [...node.querySelectorAll(what)].map(x => x.textContent);
  const reported = {lanes: {}, pipes: {}, queues: {}, copies: {}, clocks: {}, down: [], cells: {}, more: {}};
  for (const lane of document.querySelectorAll("#map .lane")) reported.lanes[lane.dataset.link] = [texts(lane, ".chip"), texts(lane, ".more")];
  for (const pipe of document.querySelectorAll("#map .pipe")) {
    reported.pipes[pipe.dataset.pipe] = [texts(pipe, ".chip:not(.processed, .rejected)").reverse(), pipe.querySelector(".passed").textContent];
  }
  for (const row of document.querySelectorAll("#map .class-row")) {
    reported.queues[row.querySelector("b").textContent] = texts(row, ".attempt, .queued");
  }
  for (const site of document.querySelectorAll("#map .site")) {
    const clock = /clock ([0-9]+)/.exec(site.textContent);
    if (clock) reported.clocks[site.id.slice(5)] = +clock[1];
    if (site.classList.contains("down")) reported.down.push(site.id.slice(5));
  }
  for (const copy of document.querySelectorAll("#map .copy")) {
    reported.copies[copy.dataset.copy] = texts(copy, ".row").filter(x => !/^-?[0-9]+ deleted$/.test(x));
    reported.more[copy.dataset.copy] = parseInt(copy.querySelector(".more")?.textContent || "0");
  }
  for (const cell of document.querySelectorAll("#map td[data-cell]")) reported.cells[cell.dataset.cell] = [...cell.querySelectorAll(".halves > span")].map(x => x.textContent);
  reported.event = document.getElementById("event").textContent;
  reported.do = document.getElementById("do").textContent;
  reported.order = texts(document, "#order .done");
  reported.faults = view.run.faults;
  reported.odd = (document.body.innerText.match(/.*(undefined|NaN|\\[object|Infinity|nul[l]\\b).*/) || [null])[0];
  reported.wide = document.documentElement.scrollWidth > innerWidth;
  return reported;
})()"""
FLIGHTS = """Array.from({length: %d}, () => {
  const line = view.run.lines[tried.event];
  tried.apply(line);
  return (line.put || []).map(([a, b]) => tried.flight(a + ">" + b).map(id => labelOf(view.run, view.run.packets[id])));
})"""
OPEN_ALL = "(() => { let more; while ((more = document.querySelector('#map .more, #order .more'))) more.click(); })()"


class Wrong(Exception):
    """A difference between a page and what it should show."""


def same(what, have, want):
    if have != want:
        raise Wrong("%s: shown %s, should be %s" % (what, json.dumps(have, ensure_ascii=False)[:300], json.dumps(want, ensure_ascii=False)[:300]))


def check_page(browser, path, data, size):
    page = browser.open("file://" + path, *size)
    try:
        return Check(page, data).whole()
    finally:
        page.close()


class Check:
    def __init__(self, page, data):
        self.page, self.data, self.lines = page, data, data["lines"]
        self.reader, self.seen = Reader(data["first"], {x["name"]: x["key"] for x in data["fragments"]}), {}
        words = [x.split(" ") for x in data["records"]]
        self.commits = {x[2].split("#")[0]: int(x[0]) for x in words if x[1] == "commit"}
        self.is_small = max(data["first"]["tms"], data["first"]["dms"]) <= 4

    def whole(self):
        opened = self.page.tell("Math.round(performance.getEntriesByType('navigation')[0].domContentLoadedEventEnd)")
        self.compare()
        few, step = len(self.lines) <= EACH, max(1, len(self.lines) // EACH)
        for line in self.lines:
            self.reader.apply(line)
            event = line["event"]
            if few:
                self.page.press("ArrowRight")
            elif event % step == 0 or event == len(self.lines):
                self.page.tell("view.go(%d)" % event)
            else:
                continue
            shown = self.compare()
            if event % (step * 7) == 0:
                self.seen[event] = shown
        if not few:
            self.all_flights()
        self.end()
        self.backward()
        if self.page.faults():
            raise Wrong("a script failed: " + self.page.faults()[0])
        return "%d events, opened in %d ms" % (len(self.lines), opened)

    def all_flights(self):
        """The flights that each event changes, without drawing them."""
        reader = Reader(self.data["first"])
        self.page.tell("window.tried = view.run.stateAt(0); 0")
        for first in range(0, len(self.lines), BATCH):
            lines, want = self.lines[first:first + BATCH], []
            for line in lines:
                reader.apply(line)
                want.append([[reader.label((a, b), x) for x in reader.flight[a, b]] for a, b, _ in line.get("put", [])])
            same("in flight behind event %d" % first, self.page.tell(FLIGHTS % len(lines)), want)

    def compare(self):
        shown, event = self.page.tell(SHOW), self.reader.event
        same("the event", shown["event"], "event %d of %d" % (event, len(self.lines)))
        same("the event's words", shown["do"], self.lines[event - 1]["do"] if event else "before the first event")
        same("faults", shown["faults"], [])
        same("a word of a script", shown["odd"], None)
        same("the page is wider than the window", shown["wide"], False)
        self.compare_flights(shown)
        self.compare_sites(shown)
        self.compare_copies(shown)
        same("at event %d what is committed" % event, shown["order"], [x for x in self.data["order"][:60] if self.commits[x] <= event])
        return shown

    def compare_flights(self, shown):
        at = "at event %d " % self.reader.event
        for name, (chips, more) in shown["lanes"].items():
            link = tuple(name.split(">"))
            want = ["%d%s" % (k, self.reader.label(link, x)) for k, x in enumerate(self.reader.flight[link], 1)]
            same(at + "in flight on " + name, [chips, more], [want[:MOST_SHOWN], ["+%d" % (len(want) - MOST_SHOWN)] if len(want) > MOST_SHOWN else []])
        for name, halves in shown["cells"].items():
            a, b = name.split(" ")
            counts = [int((re.search("\u00b7(\\d+)", x) or [0, 1])[1]) if x else 0 for x in halves]
            same(at + "in flight in the cell " + name, counts, [len(self.reader.flight[a, b]), len(self.reader.flight[b, a])])
        busy = {">".join(link) for link, flight in self.reader.flight.items() if flight}
        if self.is_small:
            same(at + "links with packets", sorted(busy - shown["lanes"].keys()), [])

    def compare_sites(self, shown):
        at, home = "at event %d " % self.reader.event, {x["name"]: x["at"] for x in self.data["classes"]}
        for name, (chips, passed) in shown["pipes"].items():
            site, cls = name.split(" ")
            link = home.get(cls, "U"), site
            same(at + "in the pipe " + name, chips[:12], [self.reader.label(link, n) for n in self.reader.pipes[site, cls]][:12])
            time = self.reader.passed.get((site, cls))
            same(at + "passed in the pipe " + name, passed, "nothing yet" if time is None else "passed %d" % time)
        for site, clock in shown["clocks"].items():
            same(at + "the clock of " + site, clock, self.reader.sites.get(site, {"clock": 0})["clock"])
        down = {x for x, reported in self.reader.sites.items() if reported.get("down")}
        if self.is_small:
            same(at + "modules that are down", sorted(shown["down"]), sorted(down))
            waiting = {"%s %s" % place for place, pipe in self.reader.pipes.items() if pipe}
            same(at + "pipes with messages", sorted(waiting - shown["pipes"].keys()), [])

    def compare_copies(self, shown):
        """A copy shows rows that it has, as many as it tells, and all that changed in the event."""
        event = self.reader.event
        changed = [x for x in self.lines[event - 1].get("rows", ()) if x[3] is not None] if event else []
        for name, rows in shown["copies"].items():
            at, have = "at event %d in the copy %s " % (event, name), self.reader.copies[tuple(name.split(" "))]
            same(at + "rows that it hasn't", [x for x in rows if x not in have.values()], [])
            same(at + "the number of rows", len(rows) + shown["more"][name], len(have))
            same(at + "rows that changed", [x for a, b, _, x in changed if (a + " " + b) == name and x not in rows], [])

    def end(self):
        """What is shown at the end, all of it opened, is what the report says."""
        self.page.tell("view.go(%d)" % len(self.lines))
        shown = self.cards()
        same("the copies at the end", {x: sorted(rows) for x, rows in shown["copies"].items()}, {x: sorted(rows) for x, rows in self.data["copies"]})
        same("the serial order", shown["order"], self.data["order"])
        names = {re.split("#| @", x)[0] for queue in shown["queues"].values() for x in queue}
        same("the pending transactions", sorted(names), sorted(x.split(" ")[0] for x in self.data["pending"]))
        same("the last record", self.page.tell("[...document.querySelectorAll('#trace div')].at(-1)?.textContent"), (self.data["records"] or [None])[-1])
        if self.data["events"][-1:] == ["settle"]:
            same("in flight after a settle", self.page.tell("view.state.packetsInFlight() + view.state.unacknowledged()"), 0)

    def cards(self):
        """What is shown of all sites; those of a matrix are selected one by one."""
        if self.is_small:
            self.page.tell(OPEN_ALL)
            return self.page.tell(SHOW)
        whole = None
        for site in self.page.tell("view.run.sites()"):
            self.page.tell("view.select({site: %s})" % json.dumps(site))
            self.page.tell(OPEN_ALL)
            shown = self.page.tell(SHOW)
            whole = whole or shown
            for part in ("copies", "queues"):
                whole[part].update(shown[part])
        return whole

    def backward(self):
        """Going back shows what was shown before."""
        self.page.tell("view.opened.clear(); view.select(null)")
        for event, shown in sorted(self.seen.items(), reverse=True):
            self.page.tell("view.go(%d)" % event)
            same("what is shown at event %d again" % event, self.page.tell(SHOW), shown)
        if self.lines:
            self.page.press("Home")
            same("the event", self.page.tell("view.event"), 0)
