#!/usr/bin/env python3
"""Writes one page with every definition on which a statement rests: what has to be read to know what is proved.

    tools/statement.py [CRATE NAME] [--into FILE]      without CRATE NAME: sdd_run IsReportOn

The statement stands first, then what it names, then what that names: each definition once, with its comment and its
place, and each word leads to its definition. A definition that a worked example names, or that the worked logs compute,
is marked: changing a word of it changes an example. Nothing of proofs/ or src/ is on the page. Without --into only the
numbers are printed: definitions and lines, crate by crate.
"""
import argparse
import collections
import html
import re
import sys

sys.dont_write_bytecode = True
import antt  # noqa: E402

STYLE = """body { font: 15px/1.45 sans-serif; max-width: 1000px; margin: 20px auto; padding: 0 16px; color: #222; background: #fdfdfb }
pre { background: #f2f4f7; padding: 8px; overflow-x: auto; font-size: 13px } .place { color: #667; font-size: 12px }
.pinned { color: #1b6e3c } a { color: #0a58a8; text-decoration: none } a:hover { text-decoration: underline }
h3:target { background: #fff2c0 }
@media (prefers-color-scheme: dark) {
  body { background: #14181d; color: #ddd } pre { background: #1d2229 } a { color: #7db7f0 } .pinned { color: #7ccf9b }
  h3:target { background: #4a4010 }
}"""
MOST_USERS = 8


def anchor(key):
    return ".".join(key)


def is_definition(key):
    return key[1] == "specs"


def reached(parts, roots):
    """What these name, and so on, breadth first: what a statement names itself comes before what those name."""
    order, seen, queue = [], set(roots), collections.deque(roots)
    while queue:
        key = queue.popleft()
        order.append(key)
        for it in sorted(x for x in parts[key].uses if is_definition(x) and x not in seen):
            seen.add(it)
            queue.append(it)
    return order


def texts_of(parts):
    """The text of each definition as it stands in its file, with the comments within."""
    by_file, texts = collections.defaultdict(list), {}
    for it in parts.values():
        if is_definition(it.key):
            by_file[it.path].append(it)
    for path, found in by_file.items():
        with open(path, encoding="utf-8") as lines:
            lines = lines.read().split("\n")
        found.sort(key=lambda it: it.line)
        for it, after in zip(found, found[1:] + [None]):
            some = lines[it.line - 1:after.line - 1 if after else len(lines)]
            while some and (not some[-1].strip() or some[-1].startswith("-- ")):
                some.pop()
            texts[it.key] = "\n".join(some)
    return texts


def is_example(text):
    """A worked example: an equation that holds by computing."""
    return re.search(r"=\s*refl\s*$", text) is not None


def pinned_by(parts, texts):
    """For each definition that a worked example names the first of these, and what the worked logs compute."""
    named, logs = {}, []
    for key in sorted(texts):
        if key[0] == "sdd_log_examples":
            logs.append(key)
        elif is_example(texts[key]):
            for it in parts[key].uses:
                named.setdefault(it, key)
    return named, set(reached(parts, logs))


def linked(part, text, shown):
    """The text as HTML, in which each word that is shown on the page is a link; words of comments are none."""
    names = {key[3]: key for key in part.uses if key in shown}
    lines = text.split("\n")
    return "\n".join(html.escape(x) if x.lstrip().startswith("--") else linked_line(x, names) for x in lines)


def linked_line(text, names):
    out, at = [], 0
    for found in antt.WORD.finditer(text):
        word = found[0]
        key = names.get(word) or names.get(word.split(".")[0])
        said = html.escape(word)
        out += [html.escape(text[at:found.start()]), '<a href="#%s">%s</a>' % (anchor(key), said) if key else said]
        at = found.end()
    return "".join(out) + html.escape(text[at:])


def mark(key, named, by_logs):
    if key in named:
        return '; <span class="pinned">worked example: %s</span>' % html.escape(named[key][3])
    if key in by_logs:
        return '; <span class="pinned">computed by the worked logs</span>'
    return ""


def users_of(parts, order):
    users = collections.defaultdict(list)
    for key in order:
        for it in parts[key].uses:
            users[it].append(key)
    return users


def entry(part, text, shown, users, note):
    called = ", ".join('<a href="#%s">%s</a>' % (anchor(it), html.escape(it[3])) for it in users[:MOST_USERS])
    yield '<h3 id="%s">%s</h3>' % (anchor(part.key), html.escape(part.name))
    yield '<div class="place">%s%s%s</div>' % (html.escape(part.place), "; named by " + called if called else "", note)
    if part.comment:
        yield "<p>%s</p>" % html.escape(" ".join(part.comment))
    yield "<pre>%s</pre>" % linked(part, text, shown)


def page(parts, order, summary, above=""):
    """The lines of the page; ABOVE is HTML that stands before its heading."""
    texts = texts_of(parts)
    named, by_logs = pinned_by(parts, texts)
    shown, users = set(order), users_of(parts, order)
    name = html.escape(order[0][3])
    marked = sum(1 for key in order if key in named or key in by_logs)
    yield "<!doctype html><html lang=en><meta charset=utf-8><meta name=viewport content=\"width=device-width\">"
    yield "<title>%s</title><style>%s</style>%s<h1>What <code>%s</code> says</h1>" % (name, STYLE, above, name)
    yield "<p>%s: all that has to be read, besides the words of the standard library. A worked example names %d of them, or the worked logs compute them.</p>" % (html.escape(summary), marked)
    for key in order:
        yield from entry(parts[key], texts[key], shown, users[key], mark(key, named, by_logs))


def root_of(parts, crate, name):
    """The definition of this name in the crate, or None."""
    return next((key for key in sorted(parts) if key[0] == crate and is_definition(key) and key[3] == name), None)


def summary_of(parts, order):
    """How much there is to read, and how much of it in each crate."""
    by_crate = collections.Counter(key[0] for key in order)
    lines = sum(1 for key in order for line in parts[key].lines if line.strip())
    return "%d definitions, %d lines, in %d crates" % (len(order), lines, len(by_crate)), by_crate


def main():
    parser = argparse.ArgumentParser(description=__doc__, formatter_class=argparse.RawDescriptionHelpFormatter)
    parser.add_argument("words", nargs="*", metavar="CRATE NAME")
    parser.add_argument("--into", metavar="FILE")
    given = parser.parse_args()
    if len(given.words) not in (0, 2):
        parser.error("a crate and a name are expected, or nothing")
    crate, name = given.words or ("sdd_run", "IsReportOn")
    parts, _ = antt.read_all()
    root = root_of(parts, crate, name)
    if root is None:
        print("statement.py: %s has no definition %s" % (crate, name), file=sys.stderr)
        return 2
    order = reached(parts, [root])
    summary, by_crate = summary_of(parts, order)
    if given.into:
        with open(given.into, "w", encoding="utf-8", newline="\n") as out:
            out.write("\n".join(page(parts, order, summary)) + "\n")
    print("%s: %s" % (name, summary))
    for crate, count in by_crate.most_common():
        print("  %-16s %d" % (crate, count))
    return 0


if __name__ == "__main__":
    sys.exit(main())
