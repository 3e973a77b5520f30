#!/usr/bin/env python3
"""Writes the site of a release: the documents as pages, each example with the page of its run, and the statements.

    tools/make_site.py INTO [--program COMMAND] [--inside COMMAND]

INTO is a folder, made where it isn't there. A browser opens its index.html from disk, and any web server can hand it out. The
pages of runs are made by the programs that are given or found, else by the reference; those of examples/broken by the
reference with that rule broken. A link that leads nowhere is refused. It takes a minute, and needs markdown-it-py: pip install
markdown-it-py (Debian: apt-get install python3-markdown-it, and call /usr/bin/python3).
"""
import glob
import html
import os
import posixpath
import shutil
import sys

import sdd_path  # noqa: F401
import antt
import statement
from link_documents import documents
from site_documents import Document, link, relative
from sdd.command import parser, start
from sdd.model.files import BadInput, text_of, write_text
from sdd.programs import ROOT, Programs, find_programs, own_command
from sdd.view.page import add_programs, page_of as page_of_run

PARTS = os.path.join(ROOT, "tools", "site")
BROWSER = "web/sdd1.html"
STATEMENTS = {          # a page each, with the words by which the navigation calls it
    "IsReportOn": ("sdd_run", "of a report"), "IsInsideOf": ("sdd_app_inside", "of what is inside"),
    "EndsAs": ("sdd_shell", "of how a call ends"), "IsSerial": ("sdd_order", "of a serial order"),
}
SHOWN_FIRST = [("index.html", "sdd1"), (BROWSER, "Look, in this browser"), ("examples/index.html", "Runs, event by event")]
FILES = ["catalogue.toml", "workload", "report"]


def page_of_statement(name):
    return "statement/%s.html" % name


class Site:
    def __init__(self, into):
        self.into, self.pages = into, set()
        words = {name: page_of_statement(name) for name in STATEMENTS}
        self.documents = [Document(x, words) for x in documents()]

    def write(self, page, text):
        path = os.path.join(self.into, page)
        os.makedirs(os.path.dirname(path), exist_ok=True)
        write_text(path, text)
        self.pages.add(page)

    def copy(self, name):
        path = os.path.join(self.into, name)
        os.makedirs(os.path.dirname(path), exist_ok=True)
        shutil.copyfile(os.path.join(ROOT, name), path)

    def navigation(self, page):
        """The links that stand beside each page."""
        front = next(x for x in self.documents if x.path == "README.md")
        rank = {target: k for k, (target, _) in reversed(list(enumerate(front.leads)))}
        groups = [("", SHOWN_FIRST), ("Statements", [(page_of_statement(x), shown) for x, (_, shown) in STATEMENTS.items()]),
                  ("Documents", sorted(((x.page, x.title) for x in self.documents if x.page in rank), key=lambda x: rank[x[0]]))]
        for heading, items in groups:
            yield "<h2>%s</h2>" % heading if heading else ""
            yield "<ul>%s</ul>" % "".join(
                "<li%s>%s</li>" % (' class="here"' if target == page else "", link(target, page, shown)) for target, shown in items)

    def framed(self, page, title, main):
        template = text_of(os.path.join(PARTS, "page.html"))
        parts = {"TITLE": html.escape(title), "TOP": relative(".", page) + "/", "NAV": "\n".join(self.navigation(page)), "MAIN": main}
        for name, text in parts.items():
            template = template.replace("@%s@" % name, text, 1)
        return template


def box_of_example(page):
    """The links to an example's run and to its files; nothing on the page of another document."""
    folder = posixpath.dirname(page)
    there = [posixpath.join(folder, x) for x in FILES if os.path.isfile(os.path.join(ROOT, folder, x))]
    if not folder.startswith("examples/") or posixpath.join(folder, "workload") not in there:
        return "", there
    links = [link(posixpath.join(folder, "run.html"), page, "go through this run, event by event")]
    if folder.count("/") == 1:
        links.append('<a href="%s#example=%s">change it, or click its schedule</a>' % (relative(BROWSER, page), posixpath.basename(folder)))
    links += [link(x, page, posixpath.basename(x)) for x in there]
    return '<p class="files">%s</p>\n' % " · ".join(links), there


def write_documents(site):
    texts = [x.html() for x in site.documents]          # first all, since the front page tells the order of the others
    for document, text in zip(site.documents, texts):
        box, files = box_of_example(document.page)
        head, end, rest = text.partition("</h1>\n")
        site.write(document.page, site.framed(document.page, document.title, head + end + box + rest))
        for name in sorted(document.files | set(files)):
            site.copy(name)


def programs_of(folder, programs):
    """The programs that make a run: of an example that is broken on purpose, the reference with that rule broken."""
    if os.path.basename(os.path.dirname(folder)) != "broken":
        return programs
    broken = own_command("reference", "--break", os.path.basename(folder))
    return Programs(broken, broken + ["inside"])


def write_runs(site, programs):
    for workload in sorted(glob.glob(os.path.join(ROOT, "examples", "**", "workload"), recursive=True)):
        folder = os.path.dirname(workload)
        page = page_of_run(programs_of(folder, programs), os.path.join(folder, "catalogue.toml"), workload, os.path.basename(folder))
        site.write(posixpath.join(os.path.relpath(folder, ROOT).replace(os.sep, "/"), "run.html"), page)


def write_statements(site):
    parts, _ = antt.read_all()
    for name, (crate, _) in STATEMENTS.items():
        root = statement.root_of(parts, crate, name)
        if root is None:
            raise BadInput("%s has no definition %s" % (crate, name))
        order, page = statement.reached(parts, [root]), page_of_statement(name)
        others = " · ".join([link("index.html", page, "sdd1")] + [link(page_of_statement(x), page, x) for x in STATEMENTS if x != name])
        site.write(page, "\n".join(statement.page(parts, order, statement.summary_of(parts, order)[0], "<p>%s</p>" % others)) + "\n")


def check_links(site):
    """Refuses a link to a page that wasn't written, or to a heading that isn't on it."""
    anchors = {x.page: x.anchors for x in site.documents}
    for document in site.documents:
        for target, anchor in document.leads:
            if target not in site.pages or anchor and anchor not in anchors[target]:
                raise BadInput("%s: the link to %s leads nowhere" % (document.path, target + ("#" + anchor if anchor else "")))


def main():
    asked = parser(__doc__)
    asked.add_argument("into", metavar="INTO")
    add_programs(asked)
    asked = asked.parse_args()
    programs, site = find_programs(asked.program, asked.inside), Site(asked.into)
    print(programs.named(), file=sys.stderr)
    write_documents(site)
    check_links(site)
    write_runs(site, programs)
    write_statements(site)
    shutil.copyfile(os.path.join(PARTS, "style.css"), os.path.join(asked.into, "style.css"))
    site.copy(BROWSER)
    print("%s: %d pages" % (os.path.join(asked.into, "index.html"), len(site.pages)))


if __name__ == "__main__":
    start(main)
