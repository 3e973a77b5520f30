"""What people write where a workload has another form: the mistakes that all give BadLine, the likeliest first.

    for what, part in mistakes_in("select * from account"): ..

PART is what is wrong of the line, as it stands there; or nothing.
"""
import re

from sdd.explain.rules import FORMS

KEYWORDS = {"from", "where", "and", "set", "+=", "=", "!=", "<", "<=", ">", ">="}
STATEMENTS = {"put", "query", "update", "delete"}
INSTEAD = {"select": "query", "insert": "put", "upsert": "put", "replace": "put", "begin": "txn", "commit": "done", "transaction": "txn",
           "lock": "submit", "run": "submit", "drop": "lose"}


def mistakes_in(line):
    yield from bad_spelling(line)
    words = line.split(" ")
    if words[0] not in FORMS:
        hint = INSTEAD.get(words[0].lower()) or (words[0].lower() if words[0].lower() in FORMS else None)
        if hint is not None:
            yield "no line begins with %s; what you want may be `%s`" % (words[0], FORMS[hint]), words[0]
    yield from bad_statement(words)


def mistake_of_order(line):
    """What is known where nothing else is."""
    words = line.split(" ")
    if any(x in KEYWORDS for x in words[1:]) and words[0] not in STATEMENTS:
        return "a keyword stands where a name belongs: from, where, and, set and the operators are no names"
    return "the words are too few, too many or in another order than the form has them"


def bad_spelling(line):
    if line.endswith("\r"):
        yield "the line ends with CR LF: save the file with line ends of Unix", "\r"
    if not line.strip():
        yield "the line is empty; there are no empty lines in a workload", ""
    if line.lstrip().startswith(("#", "--", "//")):
        yield "there are no comments in a workload", line.strip()
    if "\t" in line:
        yield "a tab is no space; words have exactly one space between them", "\t"
    if line != line.strip(" ") or "  " in re.sub(r'"(?:[^"\\]|\\.)*"', '""', line):
        yield "two spaces stand together, or one before the first word or after the last", "  " if "  " in line else " " if line[0] == " " else ""
    if "'" in line and '"' not in line:
        yield "a text stands between \" and \", not between apostrophes", line[line.index("'"):].split(" ")[0]
    if re.search(r'(^| )"', line) and not re.fullmatch(r'(?:(?:"(?:[^"\\]|\\["\\])*"|[^" ][^ ]*)(?: (?!$)|$))*', line):
        yield "a text isn't closed, has another escape than \\\" and \\\\, or no space stands after it", line[line.rindex(' "') + 1:] if ' "' in line else line
    if any(len(x.encode()) > 255 for x in re.findall(r'"((?:[^"\\]|\\.)*)"', line)):
        yield "a text has more than 255 bytes", ""


def bad_statement(words):
    kind = words[0]
    if kind not in STATEMENTS - {"put"}:
        return
    if "or" in words:
        yield "there is no `or`: put two statements, or two transactions", "or"
    if "-=" in words:
        yield "there is no `-=`: add a negative number, `1.bal += -5`", "-="
    glued = [x for x in words if not x.startswith('"') and re.search(r"\w(\+=|!=|<=|>=|=|<|>)|(\+=|!=|<=|>=|=|<|>)\w", x)]
    if glued:
        yield "a space stands before and after each operator, and there is none in %s" % glued[0], glued[0]
    if "," in "".join(x for x in words if not x.startswith('"')):
        yield "no comma stands between columns, assignments or relations, only a space", ","
    if "*" in words:
        yield "there is no `*`: name the columns, as 1.id", "*"
    if kind == "query" and "from" not in words:
        yield "`from` and the relations are missing", ""
    columns = words[1:words.index("from")] if kind == "query" and "from" in words else words[3::3] if kind == "update" else []
    columns += [words[k + 1] for k, x in enumerate(words[:-1]) if x in ("where", "and")]
    plain = [x for x in columns if "." not in x and x not in KEYWORDS]
    if plain:
        yield "a column is written with the number of its relation before it: 1.%s" % plain[0], plain[0]
    if kind == "update" and "set" not in words:
        yield "`set` is missing", ""
    if "==" in words or "<>" in words:
        yield "the operators are =, !=, <, <=, > and >=", "==" if "==" in words else "<>"
