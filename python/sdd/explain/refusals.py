"""A line by which `sdd1` refuses a file, as a person reads it: the place in the file, marked, the cause, and what helps.

    print("\n".join(shown(refusal_of("workload: line 10: UnknownName", [Given("catalogue.toml"), Given("workload")]))))

The readers of sdd/model read the files again, and know the cause; where the line isn't theirs, as of a file that changed
in between, the rule alone is explained.
"""
import difflib
import os
import re
import sys
from typing import NamedTuple

from sdd.explain.mistakes import mistake_of_order, mistakes_in
from sdd.explain.rules import FORMS, OF_CATALOGUE, OF_WORKLOAD
from sdd.model.catalogue import read_catalogue
from sdd.model.files import BadInput, bytes_of
from sdd.model.words import Cause, Fault
from sdd.model.workload import read_workload
from sdd.reference.control import read_control

FORM = re.compile(r"(?:(catalogue): (top|(?:relation|fragment|class) \d+)|(workload): line (\d+)): (\w+(?: \w+)?)")
LONGEST, MOST_LINES, MOST_NAMES = 160, 6, 12
# the rules of which the help says more than the cause
HELPED = {"RangeGap", "RangeOverlap", "ReadsWhereNoCopy", "BadKey", "NoCopy", "DuplicateName", "KeyChanged", "SubmittedTwice", "DuplicateTxn",
          "BadClass", "TooMany", "TooFew", "TooLong", "NoEnd"}


class Given(NamedTuple):
    """A file, and how a reader knows it: the path may be that of a copy of standard input."""
    path: str
    name: str = ""

    @property
    def shown(self):
        return self.name or self.path


class Refusal(NamedTuple):
    name: str               # of the file
    rule: str
    cause: Cause
    lines: list             # pairs of a number and a line
    helps: list


def refusal_of(line, files):
    """The refusal that a line tells; FILES are the catalogue and the workload, as far as they were given."""
    if FORM.fullmatch(line) is None:
        raise BadInput("%s is no line by which sdd1 refuses a file" % (line or "nothing"))
    if not files:
        raise BadInput("the file is missing of which this line speaks")
    file = files[0] if line.startswith("catalogue") else files[-1]
    data = bytes_of(file.path)
    return refusal(line, file.shown, data, cause_in(line, lambda: read_again(line, files, data)))


def refusal(line, name, data, cause):
    """The refusal of a file with this name and content; the cause is None where no reader knows it."""
    kind, place, _, number, rule = FORM.fullmatch(line).groups()
    rules = OF_CATALOGUE if kind else OF_WORKLOAD
    meaning, help_ = rules.get(rule.split(" ")[0], ("a rule that isn't known here", "docs/FORMATS.md has all rules"))
    lines = [x.decode("utf-8", "replace") for x in data.split(b"\n")]
    if kind:
        return of_catalogue(place, rule, name, lines, cause or Cause(0, 0, 0, meaning), help_)
    return of_workload(int(number), rule, name, lines, cause or Cause(int(number), 0, 0, meaning), help_)


def of_catalogue(place, rule, name, lines, cause, help_):
    if rule == "NotToml" and re.match(r"(row|txn|list|submit|end)\b", lines[0]):
        cause = Cause(1, 0, len(lines[0].split(" ")[0]), "this is a workload, and a catalogue is wanted here: the catalogue comes first")
    return Refusal(name, rule, cause, around(lines, place, cause), helps_of(rule, cause, lines, help_))


def of_workload(number, rule, name, lines, cause, help_):
    mine = lines[number - 1] if 1 <= number <= len(lines) else ""
    if rule == "BadLine":
        cause = mistaken(cause, mine)
    helps = helps_of(rule, cause, lines, help_)
    if rule in ("BadLine", "WrongKind") and "may be `" not in cause.what and mine.split(" ")[0] in FORMS:
        helps.append("the form is `%s`" % FORMS[mine.split(" ")[0]])
    cause = cause._replace(what=cause.what + before(rule, mine, lines[:max(number - 1, 0)]), line=number)
    return Refusal(name, rule, cause, [(number, mine)] if number else [], helps)


def mistaken(cause, line):
    """The cause, where the line is a likely mistake, or no cause is known."""
    what, part = next(mistakes_in(line), (None, ""))
    if what is None:
        return cause._replace(what=cause.what or mistake_of_order(line))
    found = re.search(r"(?<!\S)%s(?!\S)" % re.escape(part), line) or re.search(re.escape(part), line)
    return Cause(cause.line, found.start() if found else 0, found.end() if found else 0, what)


def read_again(line, files, data):
    """Reads a catalogue, or a workload, or, where no catalogue is given, a control file."""
    if line.startswith("catalogue"):
        read_catalogue(data)
    elif len(files) == 1:
        read_control(data)
    else:
        read_workload(read_catalogue(bytes_of(files[0].path)), data)


def cause_in(line, read):
    """The cause that a reader knows of a line; None where it tells another one."""
    try:
        read()
    except Fault as fault:
        return fault.cause if fault.line == line else None
    return None


def before(rule, line, lines):
    """Where what stands twice stands first."""
    first = {"SubmittedTwice": line, "DuplicateTxn": " ".join(line.split(" ")[:2])}.get(rule)
    found = next((k for k, x in enumerate(lines, 1) if first and (x == first or rule == "DuplicateTxn" and x.startswith(first + " "))), None)
    return ", in line %d" % found if found else ""


def around(lines, place, cause):
    """The line that is marked, with the lines of its part before it; of what has no place, the lines of the part."""
    kind, _, number = place.partition(" ")
    heads = [k for k, x in enumerate(lines, 1) if re.match(r"\s*\[\[\s*%s\s*\]\]" % kind, x)] if number else []
    begin = heads[int(number) - 1] if number and int(number) <= len(heads) else cause.line
    end = cause.line
    if not end and begin:
        after = (k for k in range(begin + 1, len(lines) + 1) if re.match(r"\s*\[", lines[k - 1]))
        end = next(after, len(lines) + 1) - 1
    if not begin or end < begin:
        begin = end
    return [(k, lines[k - 1]) for k in range(max(begin, 1), end + 1) if k in (begin, end) or end - k < MOST_LINES and lines[k - 1].strip()]


def helps_of(rule, cause, lines, help_):
    word = lines[cause.line - 1][cause.begin:cause.end].strip('"') if 0 < cause.line <= len(lines) and cause.end > cause.begin else ""
    guess = difflib.get_close_matches(word, [x for x in cause.among if x != word], 1, 0.6) if word else []
    if guess:
        return ["did you mean `%s`?" % guess[0]]
    if cause.among and not all(x in cause.what for x in cause.among):
        return ["there %s %s" % ("is" if len(cause.among) == 1 else "are", listed(cause.among))]
    return [help_] if not cause.what or rule.split(" ")[0] in HELPED else []


def listed(names):
    return ", ".join(names[:MOST_NAMES]) + (" .. (%d more)" % (len(names) - MOST_NAMES) if len(names) > MOST_NAMES else "")


# How it is printed.

RED, GREEN, BLUE = "1;31", "1;32", "1;34"


def has_colours(stream):
    return stream.isatty() and "NO_COLOR" not in os.environ and os.environ.get("TERM") != "dumb"


def painter(colours):
    return (lambda text, code: "\033[%sm%s\033[0m" % (code, text)) if colours else lambda text, code: text


def shown(refusal, colours=False):
    """The lines that are printed."""
    paint, cause = painter(colours), refusal.cause
    place = ":%d:%d" % (cause.line, cause.begin + 1) if cause.line else ""
    width = len(str(max([k for k, _ in refusal.lines] or [0])))
    bar = paint("%s |" % (" " * width), BLUE)
    made = ["%s: %s" % (paint("error[%s]" % refusal.rule, RED), plain(cause.what)),
            "%s %s%s" % (paint("%s-->" % (" " * width), BLUE), refusal.name, place)]
    last = None
    for k, line in refusal.lines:
        made += [bar] * (last is None) + [paint("...", BLUE)] * (last is not None and k > last + 1)
        made.append("%s %s" % (paint("%*d |" % (width, k), BLUE), cut(line)))
        if k == cause.line and LONGEST > cause.begin < cause.end:
            made.append("%s %s%s" % (bar, re.sub(r"[^\t]", " ", line[:cause.begin]), paint("^" * (min(cause.end, LONGEST) - cause.begin), RED)))
        last = k
    return made + ["%s %s: %s" % (paint(" " * width + " =", BLUE), paint("help", GREEN), plain(x)) for x in refusal.helps]


def plain(text):
    """The text with signs for its control characters, which a terminal would obey."""
    return re.sub("[\x00-\x08\x0a-\x1f\x7f]", lambda found: chr(0x2400 + (ord(found[0]) if found[0] != "\x7f" else 0x21)), text)


def cut(line):
    text = plain(line.rstrip("\r"))
    return text if len(text) <= LONGEST else text[:LONGEST] + " .."


def print_refusal(refusal):
    print("\n".join(shown(refusal, has_colours(sys.stderr))), file=sys.stderr)
