"""A headless Chromium, driven over a pipe by its own protocol; the standard library is enough.

    with Browser(folder) as browser:
        page = browser.open("file:///run.html", 1600, 1000)
        page.tell("view.go(4); view.event")
        page.click("[data-packet='3']")
        page.picture("run.png")
"""
import base64
import fcntl
import json
import os
import select
import shutil
import subprocess
import time

NAMES = ["chromium", "chromium-browser", "google-chrome"]
WORDS = ["--headless=new", "--no-sandbox", "--remote-debugging-pipe", "--disable-gpu", "--hide-scrollbars", "--no-first-run",
         "--disable-extensions", "--disable-background-networking", "--disable-component-update", "--force-color-profile=srgb", "about:blank"]
KEYS = {"ArrowRight": 39, "ArrowLeft": 37, "Home": 36, "End": 35, "PageUp": 33, "PageDown": 34, "Escape": 27, "Enter": 13, "Tab": 9, "ArrowDown": 40}
CTRL = 2


def find_browser(given=None):
    """The path of Chromium, or None."""
    return next((x for x in map(shutil.which, [given] if given else NAMES) if x), None)


class Fault(Exception):
    """What the browser or a script in a page tells of its failure."""


class Browser:
    def __init__(self, folder, program=None):
        self.folder, self.count, self.seen, self.rest = folder, 0, [], b""
        there, self.write = pipe_ends()
        self.read, back = pipe_ends()

        def place_ends():
            os.dup2(there, 3)
            os.dup2(back, 4)
        words = [find_browser(program)] + WORDS[:-1] + ["--user-data-dir=" + os.path.join(folder, "profile"), WORDS[-1]]
        self.process = subprocess.Popen(words, stdout=subprocess.DEVNULL, stderr=subprocess.DEVNULL, preexec_fn=place_ends, pass_fds=(3, 4))
        os.close(there)
        os.close(back)

    def __enter__(self):
        return self

    def __exit__(self, *_):
        try:
            self.ask("Browser.close", seconds=5)
            self.process.wait(10)
        except (Fault, OSError, subprocess.TimeoutExpired):
            self.process.kill()
            self.process.wait()
        os.close(self.read)
        os.close(self.write)

    def ask(self, method, session=None, seconds=120, **words):
        """Sends a command and gives its result; events that come before it are kept in `seen`."""
        self.count += 1
        asked = {"id": self.count, "method": method, "params": words}
        if session:
            asked["sessionId"] = session
        os.write(self.write, json.dumps(asked).encode() + b"\0")
        end, mine = time.monotonic() + seconds, self.count
        while True:
            reported = self.next_message(end)
            if reported.get("id") == mine:
                if "error" in reported:
                    raise Fault("%s: %s" % (method, reported["error"]["message"]))
                return reported["result"]
            self.seen.append(reported)

    def next_message(self, end):
        while b"\0" not in self.rest:
            ready, _, _ = select.select([self.read], [], [], max(0, end - time.monotonic()))
            more = os.read(self.read, 1 << 20) if ready else b""
            if not more:
                raise Fault("the browser doesn't answer")
            self.rest += more
        text, self.rest = self.rest.split(b"\0", 1)
        return json.loads(text)

    def open(self, address, width, height, dark=False):
        target = self.ask("Target.createTarget", url="about:blank")["targetId"]
        session = self.ask("Target.attachToTarget", targetId=target, flatten=True)["sessionId"]
        page = Page(self, target, session)
        page.ask("Page.enable")
        page.ask("Runtime.enable")
        page.ask("Emulation.setDeviceMetricsOverride", width=width, height=height, deviceScaleFactor=1, mobile=False)
        page.ask("Emulation.setEmulatedMedia", features=[{"name": "prefers-color-scheme", "value": "dark" if dark else "light"}])
        page.go_to(address)
        return page

    def keep_downloads(self, folder):
        self.ask("Browser.setDownloadBehavior", behavior="allow", downloadPath=folder)


def pipe_ends():
    """A pipe whose ends lie above those that the browser takes."""
    ends = os.pipe()
    high = [fcntl.fcntl(x, fcntl.F_DUPFD_CLOEXEC, 10) for x in ends]
    for x in ends:
        os.close(x)
    return high


class Page:
    def __init__(self, browser, target, session):
        self.browser, self.target, self.session = browser, target, session

    def ask(self, method, **words):
        return self.browser.ask(method, self.session, **words)

    def go_to(self, address):
        self.ask("Page.navigate", url=address)
        self.wait("document.readyState === 'complete' && location.href !== 'about:blank'")

    def tell(self, script):
        """The value of an expression in the page."""
        reported = self.ask("Runtime.evaluate", expression=script, returnByValue=True, awaitPromise=True, userGesture=True)
        if "exceptionDetails" in reported:
            fault = reported["exceptionDetails"]
            raise Fault(fault.get("exception", {}).get("description") or fault["text"])
        return reported["result"].get("value")

    def wait(self, script, seconds=60):
        end = time.monotonic() + seconds
        while not self.tell(script):
            if time.monotonic() > end:
                raise Fault("the page never came to: " + script)
            time.sleep(0.02)

    def faults(self):
        """The exceptions that scripts of the page ran into, and what its policy refused."""
        reported = []
        for x in self.browser.seen:
            if x.get("sessionId") == self.session and x["method"] == "Runtime.exceptionThrown":
                details = x["params"]["exceptionDetails"]
                reported.append(details.get("exception", {}).get("description") or details["text"])
        return reported

    def click(self, selector, count=1):
        """A click with the mouse in the middle of an element, which must be seen there."""
        place = self.tell("""(() => {
            const node = document.querySelector(%s);
            if (!node) return null;
            node.scrollIntoView({block: "nearest", inline: "nearest"});
            const r = node.getBoundingClientRect(), x = r.left + r.width / 2, y = r.top + r.height / 2;
            return {x, y, seen: node.contains(document.elementFromPoint(x, y))};
        })()""" % json.dumps(selector))
        if not place or not place["seen"]:
            raise Fault("%s: %s" % (selector, "it is covered or out of sight" if place else "no such element"))
        for kind in ("mousePressed", "mouseReleased"):
            for k in range(1, count + 1) if kind == "mousePressed" else (count,):
                self.ask("Input.dispatchMouseEvent", type=kind, x=place["x"], y=place["y"], button="left", clickCount=k)

    def processor_time(self):
        """How many seconds of a processor the page has taken; the first call begins to count."""
        self.ask("Performance.enable", timeDomain="threadTicks")
        return {x["name"]: x["value"] for x in self.ask("Performance.getMetrics")["metrics"]}["TaskDuration"]

    def press(self, key, ctrl=False):
        words = {"key": key, "windowsVirtualKeyCode": KEYS.get(key, ord(key[0].upper())), "modifiers": CTRL if ctrl else 0}
        if key == "Enter":
            words["text"] = "\r"                # without it no button is pressed
        elif key not in KEYS and not ctrl:
            words["text"] = key
        self.ask("Input.dispatchKeyEvent", type="keyDown", **words)
        self.ask("Input.dispatchKeyEvent", type="keyUp", **words)

    def type(self, text):
        self.ask("Input.insertText", text=text)

    def picture(self, path):
        with open(path, "wb") as f:
            f.write(base64.b64decode(self.ask("Page.captureScreenshot", format="png")["data"]))

    def close(self):
        self.browser.ask("Target.closeTarget", targetId=self.target)
