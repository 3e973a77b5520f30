"""Serves the page of a run, to make a schedule by clicking: a workload is what comes of it.

    sdd play CATALOGUE [WORKLOAD] [--port NUMBER] [--program COMMAND] [--inside COMMAND]

It prints an address; open it in a browser on this machine. A click on a packet delivers, loses or repeats
it; buttons submit a transaction, settle, tick a clock, resend, take a module down and up; a form adds
a transaction of your own. After each step the program runs the whole workload anew. `save the workload`
gives a file that `sdd1 run` takes. Without WORKLOAD there are no rows and no transactions at first.

It listens on the loopback address alone, answers no request of another site and none without the token of
the printed address, takes no path from a page, and writes no file but in a temporary folder. The programs
are found as `sdd page` finds them. Ctrl-C ends it.
"""
import http.server
import json
import secrets
import sys
import threading

from sdd.command import parser
from sdd.model.files import BadInput
from sdd.programs import find_programs
from sdd.view.game import Game
from sdd.view.page import SHOWN, add_programs, assembled, name_of

MOST_BODY = 64 * 1024
SCRIPTS = SHOWN + ["play.js", "controls.js", "start_play.js"]
EMPTY = {"lines": [], "records": [], "order": [], "replies": [], "pending": [], "transactions": [], "events": [], "classes": [],
         "relations": [], "fragments": [], "graph": [], "table": [], "name": "", "first": {"tms": 0, "dms": 0, "copies": []}}
HEADERS = {
    "Cache-Control": "no-store", "X-Content-Type-Options": "nosniff", "X-Frame-Options": "DENY", "Referrer-Policy": "no-referrer",
    "Cross-Origin-Resource-Policy": "same-origin", "Cross-Origin-Opener-Policy": "same-origin", "Connection": "close",
}


class Server(http.server.ThreadingHTTPServer):
    daemon_threads = True

    def __init__(self, game, port):
        super().__init__(("127.0.0.1", port), Handler)
        self.game, self.lock, self.token = game, threading.Lock(), secrets.token_urlsafe(24)
        self.page, policy = assembled(game.name, EMPTY, SCRIPTS, ["style.css", "play.css"], "; connect-src 'self'")
        self.policy = policy + "; frame-ancestors 'none'; base-uri 'none'; form-action 'none'"
        self.hosts = ["%s:%d" % (x, self.server_address[1]) for x in ("127.0.0.1", "localhost")]

    def address(self):
        return "http://%s/#token=%s" % (self.hosts[0], self.token)

    def handle_error(self, request, client_address):
        """A client that hangs up is no fault of the server."""
        if not isinstance(sys.exc_info()[1], OSError):
            super().handle_error(request, client_address)


class Handler(http.server.BaseHTTPRequestHandler):
    timeout = 10
    server_version, sys_version = "play", ""

    def log_message(self, *_):
        pass

    def tell(self, status, body, kind="application/json"):
        body = body.encode() if isinstance(body, str) else json.dumps(body, separators=(",", ":")).encode()
        self.send_response(status)
        for name, value in {"Content-Type": kind, "Content-Length": str(len(body)), "Content-Security-Policy": self.server.policy, **HEADERS}.items():
            self.send_header(name, value)
        self.end_headers()
        self.wfile.write(body)

    def refused(self, is_post):
        """A status and a reason where the request isn't one of the served page."""
        hosts, origin = self.headers.get_all("Host") or [], self.headers.get("Origin")
        if len(hosts) != 1 or hosts[0] not in self.server.hosts:
            return 421, "another host"
        if self.headers.get("Sec-Fetch-Site", "same-origin") not in ("same-origin", "none"):
            return 403, "another site"
        if not is_post:
            return None
        if origin != "http://" + hosts[0]:
            return 403, "another origin"
        if self.headers.get("Content-Type") != "application/json":
            return 403, "no JSON"
        if not secrets.compare_digest(self.headers.get("X-Token", "").encode("latin-1", "replace"), self.server.token.encode()):
            return 403, "no token: open the address that sdd play printed"
        return None

    def do_GET(self):
        fault = self.refused(False) or (None if self.path == "/" else (404, "no such place"))
        if fault:
            return self.tell(fault[0], {"refused": fault[1]})
        return self.tell(200, self.server.page, "text/html; charset=utf-8")

    def do_POST(self):
        fault, size = self.refused(True), self.headers.get("Content-Length", "")
        if fault is None and (self.headers.get("Transfer-Encoding") or not size.isascii() or not size.isdigit() or int(size) > MOST_BODY):
            fault = 413, "too long"
        if fault is None and self.path not in ("/do", "/save"):
            fault = 404, "no such place"
        if fault:
            return self.tell(fault[0], {"refused": fault[1]})
        body = self.rfile.read(int(size))
        with self.server.lock:
            if self.path == "/save":
                return self.tell(200, self.server.game.text(), "text/plain; charset=utf-8")
            try:
                reported, status = self.server.game.act(json.loads(body))
            except (ValueError, RecursionError):
                reported, status = {"refused": "no JSON object"}, 400
        return self.tell(status, reported)


def main():
    asked = parser(__doc__)
    asked.add_argument("catalogue", metavar="CATALOGUE")
    asked.add_argument("workload", metavar="WORKLOAD", nargs="?")
    asked.add_argument("--port", metavar="NUMBER", type=int, default=0, help="where it listens; without it a port that is free")
    add_programs(asked)
    asked = asked.parse_args()
    if not 0 <= asked.port < 65536:
        raise BadInput("--port is a number below 65536")
    name = name_of(asked.workload) if asked.workload else "play"
    programs = find_programs(asked.program, asked.inside)
    game = Game(programs, asked.catalogue, asked.workload, name)
    try:
        server = Server(game, asked.port)
    except OSError as fault:
        raise BadInput("port %d: %s" % (asked.port, fault.strerror.lower())) from None
    print(programs.named(), file=sys.stderr)
    print(server.address(), flush=True)
    server.serve_forever()
