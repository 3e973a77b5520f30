#!/usr/bin/env python3
"""Tries what sdd play refuses: requests of other sites, without the token, too long, or of no form.

    tests/test_play.py [--program COMMAND] [--inside COMMAND]

Each request is sent over the loopback, as a hostile page or program might send it; the answer's status is
compared, and that nothing changed. Programs are found as sdd page finds them.
"""
import http.client
import json
import os
import socket
import threading

import sdd_path  # noqa: F401
from sdd.command import parser, start
from sdd.programs import find_programs
from sdd.view.game import Game
from sdd.view.page import add_programs
from sdd.view.play import Server

EXAMPLE = os.path.join(os.path.dirname(os.path.abspath(__file__)), "..", "examples", "rejected_read")
HOSTILE_LINES = ["deliver T1 D1 1\nsubmit x", "deliver T1 D1 1;ls", "deliver T1 D1", "end", "row seat 1 \"x\"", "", "settle ", "submit", "submit ../x",
                 "deliver T1 D1 0", "deliver T1 D17 1", "tick T1 99999999999", "deliver T1 D1 1\r", "\u0661"]
LOOK, EVENT = {"do": "look"}, {"do": "event", "line": "settle", "version": 0}


class Tests:
    def __init__(self, programs):
        files = [os.path.join(EXAMPLE, x) for x in ("catalogue.toml", "workload")]
        self.server = Server(Game(programs, *files, "a test"), 0)
        threading.Thread(target=self.server.serve_forever, daemon=True).start()
        self.port, self.host = self.server.server_address[1], self.server.hosts[0]
        self.text, self.tried, self.bad = self.server.game.text(), 0, 0

    def headers(self, **changed):
        usual = {"Host": self.host, "Origin": "http://" + self.host, "Content-Type": "application/json", "X-Token": self.server.token}
        usual.update({k.replace("_", "-"): v for k, v in changed.items()})
        return {k: v for k, v in usual.items() if v is not None}

    def answer(self, method, path, headers, body=b""):
        link = http.client.HTTPConnection("127.0.0.1", self.port, timeout=30)
        link.putrequest(method, path, skip_host=True, skip_accept_encoding=True)
        for name, value in headers.items():
            for x in value if isinstance(value, list) else [value]:
                link.putheader(name, x)
        if "Content-Length" not in headers and method == "POST":
            link.putheader("Content-Length", str(len(body)))
        link.endheaders()
        link.send(body)
        answer = link.getresponse()
        reported = answer.status, answer.read(), dict(answer.getheaders())
        link.close()
        return reported

    def expect(self, name, status, *words, **more):
        have, body, headers = self.answer(*words, **more)
        fault = "status %d, should be %d" % (have, status) if have != status else ""
        if self.server.game.text() != self.text:
            fault = "the workload changed"
        if any(x.lower().startswith("access-control") for x in headers):
            fault = "another site may read the answer"
        self.judge(name, fault)
        return body

    def judge(self, name, fault):
        self.tried += 1
        self.bad += bool(fault)
        print("%s: %s" % (name, "WRONG: " + fault if fault else "good"))

    def post(self, name, status, ask, path="/do", **headers):
        body = ask if isinstance(ask, bytes) else json.dumps(ask).encode()
        return self.expect(name, status, "POST", path, self.headers(**headers), body)

    def all(self):
        self.sources()
        self.forms()
        self.lines()
        self.page()
        self.raw()
        self.limits()

    def sources(self):
        self.post("a look", 200, LOOK)
        for name, origin in (("another origin", "http://evil.example"), ("origin null", "null"), ("no origin", None),
                             ("another port", "http://127.0.0.1:1"), ("https", "https://" + self.host), ("the other name", "http://" + self.server.hosts[1])):
            self.post(name, 403, EVENT, Origin=origin)
        for name, host in (("another host", "evil.example"), ("no port", "127.0.0.1"), ("another port's host", "127.0.0.1:1"), ("two hosts", [self.host, self.host])):
            self.post(name, 421, EVENT, Host=host)
        self.expect("a page of another host", 421, "GET", "/", {"Host": "evil.example:%d" % self.port})
        self.post("another site's script", 403, EVENT, Sec_Fetch_Site="cross-site")
        self.expect("another site's frame", 403, "GET", "/", {"Host": self.host, "Sec-Fetch-Site": "cross-site"})
        for name, token in (("no token", None), ("another token", "x" * 32), ("an empty token", ""), ("a token beyond ASCII", "\u00ff")):
            self.post(name, 403, EVENT, X_Token=token)
        self.post("saving without a token", 403, {}, path="/save", X_Token=None)

    def forms(self):
        for name, kind in (("a form", "application/x-www-form-urlencoded"), ("plain text", "text/plain"), ("no type", None)):
            self.post(name, 403, EVENT, Content_Type=kind)
        self.post("70,000 bytes", 413, b" " * 70000)
        self.post("a negative length", 413, b"", Content_Length="-1")
        self.post("no length", 413, b"", Content_Length="")
        self.post("pieces", 413, b"0\r\n\r\n", Transfer_Encoding="chunked")
        for name, body in (("no JSON", b"{"), ("a list", b"[]"), ("a number", b"1"), ("deep nesting", b"[" * 60000), ("no UTF-8", b"\xff"), ("not a number", b"NaN")):
            self.post(name, 400, body)
        for ask in ({}, {"do": 1}, {"do": "run", "version": 0}, {"do": "txn", "text": "txn x T1", "version": 0}, {"do": "txn", "text": ["txn x T1"], "version": 0},
                    {"do": "txn", "text": ["txn x T1", "query 1.number from seat\ndone", "done"], "version": 0},
                    {"do": "txn", "text": ["txn x T1", "done", "settle", "done"], "version": 0}, {"do": "txn", "text": ["settle", "done"], "version": 0},
                    {"do": "back", "keep": -1, "spelled": [], "version": 0}, {"do": "back", "keep": True, "spelled": [], "version": 0},
                    {"do": "back", "keep": 0, "spelled": ["end"], "version": 0}, {"do": "row", "text": 1, "version": 0}):
            self.post("the request %s" % json.dumps(ask)[:60], 400, ask)
        self.post("a page that is behind", 409, {**EVENT, "version": 7})

    def lines(self):
        for line in HOSTILE_LINES:
            self.post("the event %s" % json.dumps(line), 400, {**EVENT, "line": line})
        for ask in ({"do": "event", "line": "submit nobody", "version": 0}, {"do": "txn", "text": ["txn x T9", "done"], "version": 0},
                    {"do": "row", "text": "row seat 8 \"free\"", "version": 0}, {"do": "redo", "version": 0}):
            reported = json.loads(self.post("refused: %s" % json.dumps(ask), 200, ask))
            self.judge("its line", "" if reported.get("refused") else "nothing is reported")

    def page(self):
        body = self.expect("the page", 200, "GET", "/", {"Host": self.host})
        self.judge("the page without the token", "the token stands in it" if self.server.token.encode() in body else "")
        for path in ("/../etc/passwd", "/workload", "/do", "/save", "/?x", "/%2e%2e/"):
            self.expect("the place " + path, 404, "GET", path, {"Host": self.host})
        self.post("the place /run", 404, LOOK, path="/run")
        for method in ("OPTIONS", "PUT", "DELETE", "TRACE"):
            self.expect("the method " + method, 501, method, "/do", self.headers())

    def raw(self):
        """A client that hangs up, and one that says nothing, stop nobody else."""
        for text in (b"", b"GET", b"POST /do HTTP/1.1\r\nHost: %s\r\nContent-Length: 50\r\n\r\n{" % self.host.encode()):
            with socket.create_connection(("127.0.0.1", self.port)) as link:
                link.sendall(text)
            self.post("a look after a client that hung up", 200, LOOK)
        try:
            socket.create_connection((socket.gethostbyname(socket.gethostname()), self.port), 2).close()
            fault = "it answers at another address" if not socket.gethostbyname(socket.gethostname()).startswith("127.") else ""
        except OSError:
            fault = ""
        self.judge("another address of this machine", fault)

    def limits(self):
        """A workload that grows too long is refused, and is then as it was."""
        put = ["settle"] * 6000
        keep = len(self.server.game.parts.events)
        self.server.game.parts.events.extend(["settle"] * 19000)
        self.text = self.server.game.text()
        reported = json.loads(self.post("too many events", 200, {"do": "back", "keep": keep + 19000, "spelled": put[:1500], "version": 0}))
        self.judge("its line", "" if reported.get("refused") == "the workload would be too long" else str(reported)[:80])


def main():
    asked = parser(__doc__)
    add_programs(asked)
    asked = asked.parse_args()
    tests = Tests(find_programs(asked.program, asked.inside))
    tests.all()
    tests.server.shutdown()
    print("%d tried, %d wrong" % (tests.tried, tests.bad))
    return 1 if tests.bad else 0


if __name__ == "__main__":
    start(main)
