#!/usr/bin/env python3
"""Writes sdd1.html: both programs as WebAssembly, the page of a run and its playing form, in one file that needs no server.

    web/build.py MODULES --into FILE [--commit TEXT]
    web/build.py PAGE --into FILE           takes the programs and their commit from a page that was made before
    web/build.py PAGE --check               ends with 1 where the page has other parts than stand here

MODULES is the folder with sdd1.wasm and sdd1_inside.wasm, which web/modules.py makes. The parts of the page of a run are
taken as they are; those of this folder stand behind them. TEXT is the commit that the page says the programs were made of,
in place of that which modules.py noted.
"""
import base64
import gzip
import html
import os
import re

from repository import EXAMPLES, HERE, PAGE

from sdd.command import parser, start
from sdd.explain import rules
from sdd.model.files import BadInput
from sdd.view.page import SHOWN, digest, embedded
from sdd.view.play import EMPTY

FIRST = ["rejected_read", "bridge", "two_protocols", "held_write", "lost_packet", "undeclared", "new_kind"]    # as in examples/README.md
PLAYED = ["play.js", "controls.js"]
SCRIPTS = ["toml.js", "refusals.js", "program.js", "run_data.js", "game.js", "address.js", "progress.js", "form.js", "start.js"]
MODULES = {"sdd1-module": "sdd1.wasm", "inside-module": "sdd1_inside.wasm"}
POLICY = "default-src 'none'; style-src %s; script-src %s 'wasm-unsafe-eval'; worker-src blob:; base-uri 'none'; form-action 'none'"
BUTTONS = """<button id="again" title="back to the catalogue and the workload">another run</button>
  <button id="save-workload" title="saves the workload of this run as a file">save</button>
  """
MOST_BYTES = 1_500_000


def text_of(*path):
    with open(os.path.join(*path), encoding="utf-8", newline="") as f:
        return f.read()


def part(*path):
    return text_of(*path).rstrip("\n")


def module(path):
    """A module as text. What is no script needs no word in the policy."""
    with open(path, "rb") as f:
        return base64.b64encode(gzip.compress(f.read(), 9, mtime=0)).decode()


def block(name, kind, text):
    if "</script" in text.lower() or "<!--" in text:
        raise BadInput("%s would end its block" % name)
    return '<script type="%s" id="%s">%s</script>' % (kind, name, text)


def described_examples():
    """What each example shows, as examples/README.md tells it."""
    for names, words in re.findall(r"^\| (`.*?`) \| (.*?) \|$", text_of(EXAMPLES, "README.md"), re.M):
        for name in re.findall("`(.*?)`", names):
            yield name, words.replace("`", "")


def examples():
    described = dict(described_examples())
    found = sorted(x for x in os.listdir(EXAMPLES) if os.path.exists(os.path.join(EXAMPLES, x, "workload")))
    ordered = [x for x in FIRST if x in found] + [x for x in found if x not in FIRST]
    return {x: [text_of(EXAMPLES, x, "catalogue.toml"), text_of(EXAMPLES, x, "workload"), described.get(x, "")] for x in ordered}


def refusals():
    """What is told of a refusal: by the rule; of a line, by its first word; and of a line that speaks of no file."""
    return {"workload": rules.OF_WORKLOAD, "catalogue": rules.OF_CATALOGUE, "forms": rules.FORMS, "others": rules.WITHOUT_FILE}


def programs_in(folder):
    """The modules as the page has them, by the names of their elements."""
    return {name: module(os.path.join(folder, file)) for name, file in MODULES.items()}


def commit_in(folder):
    """The commit of which the modules were made, as modules.py noted it."""
    found = {text_of(folder, file.replace(".wasm", ".commit")).strip() for file in MODULES.values()}
    if len(found) > 1:
        raise BadInput("the modules in %s are of two commits: %s" % (folder, " and ".join(sorted(found))))
    return found.pop()


def programs_of(page):
    """The modules that a page has, and the commit that it tells."""
    found = [re.search('<script type="text/plain" id="%s">([A-Za-z0-9+/=]+)</script>' % name, page) for name in MODULES]
    made_of = re.search('<code id="commit">(.*?)</code>', page)
    if not all(found) or not made_of:
        raise BadInput("this is no page that build.py wrote")
    return dict(zip(MODULES, (x[1] for x in found))), html.unescape(made_of[1])


def replaced(page, changes):
    """The page with each text that stands in it once in place of another; what is put in is looked at no more."""
    for old in changes:
        if page.count(old) != 1:
            raise BadInput("page.html has changed: it has %s %d times" % (old, page.count(old)))
    return re.sub("|".join(map(re.escape, changes)), lambda found: changes[found[0]], page)


def built(programs, made_of):
    script = "\n".join([part(PAGE, x) for x in SHOWN + PLAYED] + [part(HERE, x) for x in SCRIPTS])
    style = "\n".join([part(PAGE, "style.css"), part(PAGE, "play.css"), part(HERE, "style.css")])
    blocks = [block("examples", "application/json", embedded(examples())), block("rules", "application/json", embedded(refusals())),
              block("worker", "text/plain", part(HERE, "worker.js"))]
    blocks += [block(name, "text/plain", text) for name, text in programs.items()]
    return replaced(part(PAGE, "page.html"), {
        "@TITLE@": "SDD-1", "@POLICY@": POLICY % (digest(style), digest(script)), "@STYLE@": style, "@DATA@": embedded(EMPTY),
        "<body>": '<body class="starting">\n' + part(HERE, "start.html").replace("@COMMIT@", html.escape(made_of)),
        '<h1 id="name">': BUTTONS + '<h1 id="name">',
        "<script>@SCRIPT@": "\n".join(blocks) + "\n<script>" + script,
    }) + "\n"


def main():
    asked = parser(__doc__)
    asked.add_argument("given", metavar="MODULES|PAGE")
    asked.add_argument("--into", metavar="FILE")
    asked.add_argument("--commit", metavar="TEXT")
    asked.add_argument("--check", action="store_true")
    asked = asked.parse_args()
    is_page = os.path.isfile(asked.given)
    if bool(asked.into) == asked.check or asked.check and not is_page:
        raise BadInput("give --into FILE, or --check with a page")
    programs, made_of = programs_of(text_of(asked.given)) if is_page else (programs_in(asked.given), asked.commit or commit_in(asked.given))
    page = built(programs, made_of).encode()
    if asked.check:
        is_same = text_of(asked.given).encode() == page
        print("%s: %s" % (asked.given, "made of these parts" if is_same else "made of other parts; tools/web.sh makes it anew"))
        return 0 if is_same else 1
    if len(page) > MOST_BYTES:
        raise BadInput("the page would have %d bytes; %d are the most" % (len(page), MOST_BYTES))
    with open(asked.into, "wb") as f:
        f.write(page)
    print("%s: %d bytes, of commit %s" % (asked.into, len(page), made_of))
    return 0


if __name__ == "__main__":
    start(main)
