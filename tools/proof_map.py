#!/usr/bin/env python3
"""Maps the proof: from each clause of the report to the lemmas that carry it, down to the definitions.

    tools/proof_map.py --into docs/PROOF.md --picture docs/proof.svg     writes the map into the page, and the picture
    tools/proof_map.py --unused                                          lists lemmas that nothing names

The page keeps what is written by hand; the map stands between the lines `<!-- map -->` and `<!-- end of map -->`.
What names what is read off the words of the files, so a lemma that only the prover's own search uses isn't seen:
sizes are lower bounds, and a lemma that is listed as unused may still be used so.
"""
import argparse
import os
import re
import sys

import sdd_path  # noqa: F401
import antt
from sdd.view.svg import label, shape, whole

REPORT, MADE = ("sdd_run", "IsReportOn"), ("sdd_run", "reported")
BEGIN, END = "<!-- map -->", "<!-- end of map -->"
STYLE = """
text { font: 11px sans-serif; fill: #222 } .h { font: bold 12px sans-serif } .n { fill: #555 }
.cell { stroke: #fff } .none { fill: #f2f4f7; stroke: #fff }
"""
OF_FUNCTION = re.compile(r"(^|\.)(Answers|Invariants|Proof|Goals)$")


class Refused(Exception):
    """Why there is no map."""


def one(parts, crate, name):
    found = [it for it in parts.values() if it.crate == crate and it.name == name]
    if not found:
        raise Refused("%s has no %s" % (crate, name))
    return found[0]


def fields_of(record):
    """The fields of a record: name, comment, type."""
    with open(record.path, encoding="utf-8") as it:
        lines = it.read().split("\n")[record.line:]
    fields, comment = [], []
    for line in lines:
        short = line.strip()
        found = re.match(r"  (?:pub )?([\w]+) : (.*)", line)
        if short.startswith("--"):
            comment.append(short[2:].strip())
        elif found:
            fields.append([found[1], " ".join(comment), found[2]])
            comment = []
        elif line.startswith("    ") and fields:
            fields[-1][2] += " " + short
        elif short:
            break
    return fields


def terms_of(made):
    """What each field is made of, as text; names that are bound above are written out."""
    bound, terms, name = {}, {}, None
    for line in made.lines:
        let = re.match(r"\s+let (\w+) = (.*) in$", line)
        field = re.match(r"\s{6}(\w+) = (.*)", line)
        if let:
            bound[let[1]] = let[2]
        elif field:
            name = field[1]
            terms[name] = field[2]
        elif name:
            terms[name] += " " + line.strip()
    for name, text in terms.items():
        words = set(antt.WORD.findall(text))
        terms[name] = " ".join([text, *(of for key, of in bound.items() if key in words)])
    return terms


def named_in(text, made, parts):
    """The parts that a text of the same file names, in the order of their keys."""
    heads = {word.split(".")[0] for word in antt.WORD.findall(text)}
    return sorted(key for key in made.uses if key[3] in heads or parts[key].name in heads)


def laws_from(parts, closure):
    """By crate, the lemmas that another crate of the closure takes from it, and all lines of the crate in it."""
    taken, lines = {}, {}
    for key in closure:
        it = parts[key]
        if it.kind == "proofs":
            lines[it.crate] = lines.get(it.crate, 0) + len(it.lines)
        for other in it.uses:
            if other in closure and other[0] != it.crate and other[1] == "proofs":
                taken.setdefault(other[0], set()).add(other)
    return taken, lines


def order_of_crates():
    return {name: at for at, name in enumerate(antt.crates())}


def rows_of(parts):
    """A row for each clause: name, what it says, its lemmas, what carries them, lines by crate."""
    made, record = one(parts, *MADE), one(parts, *REPORT)
    terms = terms_of(made)
    for name, comment, of_type in fields_of(record):
        seeds = [key for key in named_in(terms.get(name, ""), made, parts) if key[1] == "proofs"]
        closure = antt.reached(parts, seeds)
        taken, lines = laws_from(parts, closure)
        yield name, comment, of_type, [parts[key] for key in seeds], taken, lines


def page_of(parts, rows):
    """Three tables: the clauses with their lemmas, the lines of each crate that carry each, what is taken from each crate."""
    order = order_of_crates()
    made = [row for row in rows if row[3]]
    crates = sorted({crate for row in made for crate in row[5]}, key=lambda it: -order.get(it, 0))
    lines = ["Made by `tools/proof_map.py` from the text: %d definitions and lemmas, %d lines of them in `proofs/`. The clauses are the fields of `IsReportOn` (`crates/%s`); those that are given, or follow by computation, name no lemma: %s." % (
        len(parts), sum(len(it.lines) for it in parts.values() if it.kind == "proofs"), one(parts, *REPORT).place,
        ", ".join("`%s`" % row[0] for row in rows if not row[3])), "",
        "| clause | made by | lines of proof below it |", "|---|---|---|"]
    for name, _, _, seeds, _, sizes in made:
        lines.append("| `%s` | %s | %d |" % (name, ", ".join("`%s` (%s)" % (it.name, it.place) for it in seeds), sum(sizes.values())))
    lines += ["", "Which crates carry it, in lines of proof:", "", "| crate | %s |" % " | ".join("`%s`" % row[0] for row in made), "|---|%s" % ("---|" * len(made))]
    for crate in crates:
        lines.append("| `%s` | %s |" % (crate, " | ".join(str(row[5].get(crate, "")) for row in made)))
    lines += ["", "What the crates above take from each, the largest three by what they rest on:", "", "| crate | lemmas | and more |", "|---|---|---|"]
    for crate in crates:
        taken = set().union(*(row[4].get(crate, set()) for row in made))
        most = sorted(taken, key=lambda key: (-len(antt.reached(parts, [key])), key))[:3]
        shown = ", ".join("`%s` (%s)" % (parts[key].name, parts[key].place.partition("/")[2]) for key in most)
        lines.append("| `%s` | %s | %s |" % (crate, shown or "its own", len(taken) - len(most) or ""))
    lines.append("")
    return "\n".join(lines)


def picture_of(rows):
    """Clauses by crates; a cell is darker where more of the crate's proof carries the clause."""
    order = order_of_crates()
    rows = [row for row in rows if row[3]]
    names = sorted({crate for row in rows for crate in row[5]}, key=lambda it: order.get(it, 0))
    left, top, wide, high = 130, 130, 20, 20
    shapes = [label(10, 20, "Which crates' proofs carry which clause of the report", "h")]
    for k, crate in enumerate(names):
        x = left + k * wide + 14
        shapes.append('<text x="%d" y="%d" transform="rotate(-60 %d %d)">%s</text>' % (x, top - 8, x, top - 8, crate))
    for j, (name, _, _, _, _, sizes) in enumerate(rows):
        y = top + j * high
        shapes.append(label(10, y + 14, name))
        for k, crate in enumerate(names):
            size = sizes.get(crate, 0)
            shade = 92 - min(62, int(9 * (size ** 0.5) / 4)) if size else None
            place = {"x": left + k * wide, "y": y, "width": wide, "height": high}
            text = "%s: %d lines of %s" % (name, size, crate)
            style = {"fill": "hsl(214,55%%,%d%%)" % shade} if size else {}
            shapes.append(shape("rect", "cell" if size else "none", text, **place, **style))
    return whole(left + len(names) * wide + 40, top + len(rows) * high + 20, STYLE, shapes)


def unused(parts, passed_on):
    """Lemmas that nothing names: neither a definition, a lemma, a function's proof nor a contract."""
    named = antt.cited_by_code(passed_on)
    for it in parts.values():
        named |= it.uses
    for key, it in sorted(parts.items()):
        if key not in named and it.kind == "proofs" and not OF_FUNCTION.search(it.module):
            yield "%s: %s, %d lines" % (it.place, it.name, len(it.lines))


def put_in(path, text):
    try:
        with open(path, encoding="utf-8") as it:
            page = it.read()
    except OSError:
        page = "%s\n%s\n" % (BEGIN, END)
    if page.count(BEGIN) != 1 or page.count(END) != 1:
        raise Refused("%s: the map stands between `%s` and `%s`, each once" % (path, BEGIN, END))
    head, tail = page.partition(BEGIN)[0], page.partition(END)[2]
    with open(path, "w", encoding="utf-8", newline="\n") as it:
        it.write("%s%s\n%s\n%s%s" % (head, BEGIN, text, END, tail))


def main(words):
    parser = argparse.ArgumentParser(description=__doc__, formatter_class=argparse.RawDescriptionHelpFormatter)
    parser.add_argument("--into", help="the page that has the map; else it is printed")
    parser.add_argument("--picture", help="the file of the picture")
    parser.add_argument("--unused", action="store_true", help="lists lemmas that nothing names")
    options = parser.parse_args(words)
    try:
        parts, passed_on = antt.read_all()
        if options.unused:
            print("\n".join(unused(parts, passed_on)))
            return 0
        rows = list(rows_of(parts))
        text = page_of(parts, rows)
        if options.into:
            put_in(options.into, text)
        else:
            print(text)
        if options.picture:
            with open(options.picture, "w", encoding="utf-8", newline="\n") as it:
                it.write(picture_of(rows))
    except (Refused, OSError) as fault:
        print("proof_map.py: %s" % fault, file=sys.stderr)
        return 2
    return 0


if __name__ == "__main__":
    sys.exit(main(sys.argv[1:]))
