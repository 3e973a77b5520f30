#!/usr/bin/env python3
"""Makes each mention of a document in a document a link, or checks that it is one and that links lead somewhere.

    tools/link_documents.py [--check]

A mention is a name that ends with .md, as docs/TUTORIAL.md, outside code; in a document of docs/ the folder may be left
out. With --check nothing is written: what isn't a link, and what isn't there, is printed, and the status is 1.
"""
import os
import re
import shutil
import subprocess

import sdd_path  # noqa: F401
from sdd.command import parser, start
from sdd.model.files import text_of, write_text
from sdd.programs import ROOT

CODE = re.compile(r"(```.*?^ *```|^ {4}.*?$|^#.*?$|`[^`\n]*`)", re.DOTALL | re.MULTILINE)
QUOTED = re.compile(r"`((?:[\w.-]+/)*[\w.-]+\.md)`")
LINK = re.compile(r"(!?\[(?:[^\[\]]|\[[^\]]*\])*\]\([^)\s]*\))")
MENTION = re.compile(r"(?<![\w/.-])((?:[\w.-]+/)*[\w-]+\.md)(?![\w/])")


def documents():
    """The documents of the repository, by their paths from its top."""
    words = ["git", "-C", ROOT, "ls-files", "-z", "--cached", "--others", "--exclude-standard", "*.md"]
    listed = subprocess.run(words, stdout=subprocess.PIPE, stderr=subprocess.DEVNULL) if shutil.which("git") else None
    if listed is None or listed.returncode:         # a copy without git
        return sorted(os.path.relpath(os.path.join(at, x), ROOT) for at, folders, names in os.walk(ROOT) for x in names
                      if x.endswith(".md") and not set(os.path.relpath(at, ROOT).split(os.sep)) & {"out", ".git", "build"})
    return [x for x in listed.stdout.decode().split("\0") if x and os.path.exists(os.path.join(ROOT, x))]


def place_of(document, name):
    """The file that a document names, from the top; None where there is none."""
    for folder in (os.path.dirname(document), "", "docs"):
        place = os.path.normpath(os.path.join(folder, name))
        if os.path.isfile(os.path.join(ROOT, place)):
            return place
    return None


class Document:
    def __init__(self, path):
        self.path, self.text, self.faults = path, text_of(os.path.join(ROOT, path)), []

    def link(self, name, shown):
        place = place_of(self.path, name)
        if place is None:
            self.faults.append("%s names %s, which isn't there" % (self.path, name))
        if place is None or place == self.path:
            return shown
        return "[%s](%s)" % (shown, os.path.relpath(place, os.path.dirname(self.path) or ".").replace(os.sep, "/"))

    def linked(self):
        """The text with each mention as a link."""
        made = []
        for k, part in enumerate(CODE.split(self.text)):
            quoted = QUOTED.fullmatch(part) if k % 2 else None
            if quoted and not (made and made[-1].endswith("[")):
                made.append(self.link(quoted[1], part))
            elif k % 2:
                made.append(part)
            else:
                pieces = LINK.split(part)
                made.append("".join(x if n % 2 else MENTION.sub(lambda found: self.link(found[1], found[1]), x) for n, x in enumerate(pieces)))
        return "".join(made)

    def dead_links(self):
        for found in re.finditer(r"\]\(([^)\s#:]+)(?:#[^)\s]*)?\)", self.text):
            if not os.path.exists(os.path.join(ROOT, os.path.dirname(self.path), found[1])):
                yield "%s: the link to %s leads nowhere" % (self.path, found[1])


def faults_of(document):
    linked = document.linked()
    yield from document.faults
    yield from document.dead_links()
    if linked != document.text:
        pairs = zip(document.text.split("\n"), linked.split("\n"))
        place = next(k for k, (a, b) in enumerate(pairs, 1) if a != b)
        yield "%s: line %d: a mention of a document isn't a link; tools/link_documents.py makes it one" % (document.path, place)


def main():
    asked = parser(__doc__)
    asked.add_argument("--check", action="store_true", help="write nothing")
    asked = asked.parse_args()
    found = [Document(x) for x in documents()]
    if asked.check:
        faults = [line for x in found for line in faults_of(x)]
        print("\n".join(faults), end="\n" * bool(faults))
        return 1 if faults else 0
    for x in found:
        linked = x.linked()
        if linked != x.text:
            write_text(os.path.join(ROOT, x.path), linked)
            print(x.path)
        print("\n".join(x.faults), end="\n" * bool(x.faults))
    return 0


if __name__ == "__main__":
    start(main)
