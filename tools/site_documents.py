"""The documents of the repository as pages of a site: a part of make_site.py.

A page stands where its document stands, and README.md of a folder is the index of that folder. Links between documents
become links between pages; any other file to which a document leads is noted, to be copied to the site.
"""
import html
import os
import posixpath
import re

import sdd_path  # noqa: F401
from sdd.model.files import BadInput, text_of
from sdd.programs import ROOT

try:
    from markdown_it import MarkdownIt
except ImportError:
    MarkdownIt = None
NO_LIBRARY = "there is no markdown-it-py here: pip install markdown-it-py (Debian: apt-get install python3-markdown-it)"
OUTSIDE = re.compile(r"[a-z][a-z0-9+.-]*:")


def page_of(document):
    """The page of a document, by its path from the top."""
    folder, name = posixpath.split(document)
    return posixpath.join(folder, "index.html" if name == "README.md" else name.removesuffix(".md") + ".html")


def relative(target, page):
    return posixpath.relpath(target, posixpath.dirname(page) or ".")


def plain(inline):
    """The text of a heading without its marks."""
    return "".join(x.content for x in inline.children if x.type in ("text", "code_inline"))


def anchor_of(title, taken):
    """The name by which a link leads to a heading, as hosts of repositories make it."""
    name = re.sub(r"[^\w\- ]", "", title.lower()).replace(" ", "-")
    taken[name] = taken.get(name, -1) + 1
    return "%s-%d" % (name, taken[name]) if taken[name] else name


class Document:
    """A document with its title, and its text as HTML once `page` has been called."""

    def __init__(self, path, words):
        if MarkdownIt is None:
            raise BadInput(NO_LIBRARY)
        self.path, self.page, self.words = path, page_of(path), words
        self.reader = MarkdownIt("commonmark").enable("table")
        self.tokens = self.reader.parse(text_of(os.path.join(ROOT, path)))
        self.anchors, self.leads, self.files = set(), [], set()
        self.name_headings()
        self.title = next((plain(after) for x, after in zip(self.tokens, self.tokens[1:]) if x.type == "heading_open" and x.tag == "h1"), path)

    def name_headings(self):
        taken = {}
        for token, after in zip(self.tokens, self.tokens[1:]):
            if token.type == "heading_open":
                name = anchor_of(plain(after), taken)
                token.attrSet("id", name)
                self.anchors.add(name)

    def led(self, address):
        """The address on the site of what a link of this document leads to."""
        if OUTSIDE.match(address):
            return address
        name, mark, anchor = address.partition("#")
        target = posixpath.normpath(posixpath.join(posixpath.dirname(self.path), name)) if name else self.path
        there = os.path.join(ROOT, target)
        if os.path.isdir(there):
            target, there = posixpath.join(target, "README.md"), os.path.join(there, "README.md")
        if not os.path.isfile(there):
            raise BadInput("%s: the link to %s leads nowhere" % (self.path, address))
        if target.endswith(".md"):
            target = page_of(target)
            self.leads.append((target, anchor))
        else:
            self.files.add(target)
        return (relative(target, self.page) if name else "") + mark + anchor

    def named(self, word):
        """The page that a word in code leads to: that of a statement, or of a folder with a README.md."""
        if word in self.words:
            return self.words[word]
        for folder in (posixpath.join(posixpath.dirname(self.path), word), word):
            if re.fullmatch(r"[\w/-]+", word) and os.path.isfile(os.path.join(ROOT, folder, "README.md")):
                return page_of(posixpath.join(folder, "README.md"))
        return None

    def link_inline(self, inline):
        """Leads the links of a piece of text to the site, and words in code to their pages."""
        made, within = [], 0
        for token in inline.children:
            if token.type == "link_open":
                token.attrSet("href", self.led(token.attrGet("href")))
            elif token.type == "image":
                token.attrSet("src", self.led(token.attrGet("src")))
            within += token.nesting if token.type in ("link_open", "link_close") else 0
            target = self.named(token.content) if token.type == "code_inline" and not within else None
            made += linked(token, relative(target, self.page)) if target and target != self.page else [token]
        inline.children = made

    def html(self):
        for token in self.tokens:
            if token.type == "inline":
                self.link_inline(token)
        return self.reader.renderer.render(self.tokens, self.reader.options, {})


def linked(token, address):
    """The token within a link."""
    begin, end = type(token)("link_open", "a", 1), type(token)("link_close", "a", -1)
    begin.attrSet("href", address)
    return [begin, token, end]


def link(target, page, shown):
    """A link from a page to another place of the site."""
    return '<a href="%s">%s</a>' % (html.escape(relative(target, page)), html.escape(shown))
