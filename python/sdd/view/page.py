"""Writes a page that shows every packet of a run: one HTML file, which a browser opens from disk.

    sdd page CATALOGUE WORKLOAD [--into FILE] [--title TEXT] [--program COMMAND] [--inside COMMAND]

It is opened in the browser, from a temporary file, or with --into written to FILE and not opened.

The page goes through the events of the run, forward and back. It shows what is in flight on each link and
at which place, what is in each pipe and why it waits, clocks, queues and copies, and says in words what
happens. Keys: right and left arrow for the next event and the one before, n and p for those that have a
record, Home and End; # e=17 behind the address opens it at event 17.

--program is a built `sdd1`, and --inside a built `sdd1_inside`, which is also found beside `sdd1`. Without
them those built in crates/ are taken, or those on the path, or else the reference, which is slower; a line
says which. docs/INSIDE.md has the form of what `sdd1_inside` prints. `sdd play` serves the same page, to make
a schedule by clicking.
"""
import base64
import hashlib
import html
import json
import os
import pathlib
import pkgutil
import re
import sys
import tempfile
import webbrowser

from sdd.command import parser
from sdd.model.files import write_text
from sdd.programs import add_program
from sdd.programs import find_programs
from sdd.view.states import run_data

SHOWN = ["dom.js", "run.js", "state.js", "names.js", "words.js", "cards.js", "map.js", "matrix.js", "past.js", "graph.js",
         "hanging.js", "timeline.js", "side.js", "room.js", "main.js"]


def part(name):
    """A part of the page, with the line ends by which a browser hashes it."""
    return pkgutil.get_data("sdd.view", "parts/" + name).decode().replace("\r\n", "\n").rstrip("\n")


def embedded(data):
    """JSON within a page: a text of a row may be `</script>`."""
    text = json.dumps(data, ensure_ascii=False, separators=(",", ":"))
    return text.replace("<", "\\u003c").replace("\u2028", "\\u2028").replace("\u2029", "\\u2029")


def digest(text):
    return "'sha256-%s'" % base64.b64encode(hashlib.sha256(text.encode()).digest()).decode()


def policy(style, script, more=""):
    """What the page may do: run its own script, and open nothing."""
    return "default-src 'none'; style-src %s; script-src %s%s" % (digest(style), digest(script), more)


def assembled(title, data, scripts, styles, more=""):
    """The page, and its policy."""
    script = "\n".join(part(x) for x in scripts)
    style = "\n".join(part(x) for x in styles)
    reported = {"TITLE": html.escape(title), "DATA": embedded(data), "SCRIPT": script, "STYLE": style, "POLICY": policy(style, script, more)}
    return re.sub("@(TITLE|DATA|SCRIPT|STYLE|POLICY)@", lambda found: reported[found[1]], part("page.html")) + "\n", reported["POLICY"]


def page_of(programs, catalogue, workload, title):
    """The page of a run."""
    page, _ = assembled(title, run_data(programs, catalogue, workload, title), SHOWN + ["start.js"], ["style.css"])
    return page


def name_of(workload):
    """A run's name: that of its file, or of its folder where the file is called `workload`."""
    folder, name = os.path.split(os.path.abspath(workload))
    return os.path.basename(folder) if name == "workload" else name


def add_programs(asked):
    add_program(asked)
    asked.add_argument("--inside", metavar="COMMAND", help="a built `sdd1_inside`")


def main():
    asked = parser(__doc__)
    asked.add_argument("catalogue", metavar="CATALOGUE")
    asked.add_argument("workload", metavar="WORKLOAD")
    asked.add_argument("--into", metavar="FILE", help="the page's file; without it a temporary one, which is opened in the browser")
    asked.add_argument("--title", metavar="TEXT", help="what stands above; without it the name of the workload")
    add_programs(asked)
    asked = asked.parse_args()
    title = asked.title or name_of(asked.workload)
    programs = find_programs(asked.program, asked.inside)
    page = page_of(programs, asked.catalogue, asked.workload, title)
    path = asked.into or os.path.join(tempfile.mkdtemp(prefix="sdd-"), title_of_file(title) + ".html")
    write_text(path, page)
    print(programs.named(), file=sys.stderr)
    if not asked.into:
        print(path, flush=True)
        if has_screen():
            webbrowser.open(pathlib.Path(path).as_uri())


def has_screen():
    """Whether a browser has a window: without one, Python would take one that fills the terminal."""
    return sys.platform in ("win32", "darwin") or any(x in os.environ for x in ("DISPLAY", "WAYLAND_DISPLAY", "BROWSER"))


def title_of_file(title):
    """A name of a file for a title."""
    return re.sub(r"[^A-Za-z0-9_-]+", "_", title).strip("_") or "run"
