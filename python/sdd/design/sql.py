"""A plain subset of SQL, read for sdd from-sql: tables, rows, transactions with parameters, calls, and calls to be drawn.

    script = read_script(path)

What isn't in the subset is refused by `BadInput`, with the number of the line.
"""
import re

from sdd.design.sql_parts import Column, Condition, Draw, Parameter, Procedure, Script, Statement, Table, Token
from sdd.model.files import BadInput, text_of

TOKEN = re.compile(r"\s+|--[^\n]*|(?P<text>'(?:[^']|'')*')|(?P<number>-?\d+(?![\w.]))|(?P<param>:[A-Za-z]\w*)|(?P<word>[A-Za-z_]\w*)"
                   r"|(?P<sign><=|>=|<>|!=|[=<>(),;.*+\-])")
KINDS = {"INT": "int", "INTEGER": "int", "BIGINT": "int", "SMALLINT": "int", "TEXT": "text", "VARCHAR": "text", "CHAR": "text"}
NAME = re.compile(r"[A-Za-z][A-Za-z0-9_]{0,31}")
STRANGE = {"OR": "there is no OR; write two statements", "NOT": "there is no NOT", "IN": "there is no IN; write one statement for each value",
           "LIKE": "there is no LIKE", "ORDER": "answers are sets, there is no ORDER BY", "GROUP": "there are no groups",
           "LIMIT": "there is no LIMIT", "NULL": "there is no NULL", "LEFT": "there are no outer joins", "RIGHT": "there are no outer joins",
           "OUTER": "there are no outer joins", "UNION": "there is no UNION; write two queries", "HAVING": "there are no groups",
           "DISTINCT": "answers are sets anyway; leave DISTINCT out", "EXISTS": "there are no subqueries", "COUNT": "nothing is counted or summed",
           "SUM": "nothing is counted or summed", "MIN": "nothing is counted or summed", "MAX": "nothing is counted or summed",
           "AVG": "nothing is counted or summed", "IF": "there are no conditions between statements"}


class Reader:
    def __init__(self, path):
        self.path, self.tokens, self.at, self.is_row = path, [], 0, False
        text, place, line = text_of(path), 0, 1
        while place < len(text):
            found = TOKEN.match(text, place)
            if found is None:
                raise BadInput("%s: line %d: %s isn't understood" % (path, line, text[place]))
            if found.lastgroup:
                self.tokens.append(Token(found.lastgroup, found[0], line))
            line += found[0].count("\n")
            place = found.end()
        self.tokens.append(Token("end", "the end", line))

    def fault(self, what, token=None):
        raise BadInput("%s: line %d: %s" % (self.path, (token or self.tokens[self.at]).line, what))

    def peek(self):
        return self.tokens[self.at]

    def next(self, *kinds):
        token = self.peek()
        if token.kind not in kinds:
            hint = STRANGE.get(token.text.upper())
            self.fault(hint or "%s stands where %s belongs" % (token.text, " or ".join({"word": "a name", "sign": "a sign"}.get(x, "a " + x) for x in kinds).replace("a param", "a parameter")))
        self.at += 1
        return token

    def has(self, *words):
        """Whether these words come next; then they are taken."""
        found = [x.text.upper() for x in self.tokens[self.at:self.at + len(words)]]
        if found == list(words):
            self.at += len(words)
            return True
        return False

    def demand(self, *words):
        if not self.has(*words):
            token = self.peek()
            self.fault(STRANGE.get(token.text.upper()) or "%s stands where %s belongs" % (token.text, " ".join(words)))

    def name(self):
        token = self.next("word")
        if token.text.upper() in STRANGE:
            self.fault(STRANGE[token.text.upper()], token)
        if not NAME.fullmatch(token.text) or token.text.lower() in ("from", "where", "and", "set"):
            self.fault("%s can't be a name in a catalogue" % token.text, token)
        return token.text

    def listed(self, one):
        made = [one()]
        while self.has(","):
            made.append(one())
        return made

    def site(self, letter):
        token = self.next("word")
        if not re.fullmatch(letter + r"([1-9]|1[0-6])", token.text.upper()):
            self.fault("%s is no module %s1 to %s16" % (token.text, letter, letter), token)
        return token.text.upper()

    def value(self):
        return self.next("text", "number", "param")

    def script(self):
        made = Script({}, [], {}, [])
        while self.peek().kind != "end":
            line = self.peek().line
            if self.has("CREATE", "TABLE"):
                table = self.table(line)
                made.tables[table.name] = table
            elif self.peek().text.upper() == "INSERT":
                self.is_row = True
                made.rows.append(self.statement())
                self.is_row = False
            elif self.has("TRANSACTION"):
                procedure = self.procedure(line)
                made.procedures[procedure.name] = procedure
            elif self.has("CALL"):
                made.calls.append(self.call(line))
            elif self.has("DRAW"):
                made.calls.append(self.draw(line))
            else:
                self.fault("%s begins none of CREATE TABLE, INSERT, TRANSACTION, CALL and DRAW" % self.peek().text)
        return made

    def table(self, line):
        name, columns, key = self.name(), [], None
        self.demand("(")
        while True:
            column, kind = self.name(), self.next("word").text.upper()
            if kind not in KINDS:
                self.fault("%s is no kind of column; there are whole numbers (INT) and texts (TEXT)" % kind)
            if self.has("("):
                self.next("number")
                self.demand(")")
            columns.append((column, KINDS[kind]))
            if self.has("PRIMARY", "KEY"):
                key = column
            self.has("NOT", "NULL")
            if not self.has(","):
                break
        self.demand(")")
        if key is None or dict(columns)[key] != "int":
            self.fault("a table has one column INT PRIMARY KEY: compose a key of several columns to one number")
        fragments = self.partitions(key) if self.has("PARTITION", "BY", "RANGE") else [(name + "_all", None, self.copies())]
        self.demand(";")
        return Table(name, line, columns, key, fragments)

    def copies(self):
        """The data modules after AT."""
        self.demand("AT")
        made = [int(self.site("D")[1:])]
        while self.peek().text == "," and re.fullmatch(r"[Dd]\d+", self.tokens[self.at + 1].text):
            self.at += 1
            made.append(int(self.site("D")[1:]))
        return made

    def partitions(self, key):
        self.demand("(")
        if self.name() != key:
            self.fault("a table is cut by its key, %s" % key)
        self.demand(")")
        self.demand("(")
        made, last = [], False
        while not last:
            self.demand("PARTITION")
            name = self.name()
            self.demand("VALUES", "LESS", "THAN")
            last, end = self.has("MAXVALUE"), None
            if not last:
                self.demand("(")
                end = int(self.next("number").text)
                self.demand(")")
            made.append((name, end, self.copies()))
            if not last:
                self.demand(",")
        self.demand(")")
        return made

    def procedure(self, line):
        name, parameters, statements = self.name(), [], []
        self.demand("(")
        if not self.has(")"):
            parameters = self.listed(self.parameter)
            self.demand(")")
        self.demand("AT")
        site = self.site("T")
        cls = self.name() if self.has("IN") else None
        self.demand(";")
        while not self.has("COMMIT", ";"):
            statements.append(self.statement())
        return Procedure(name, line, site, parameters, statements, cls)

    def parameter(self):
        name = self.next("param").text
        if self.has("IN"):
            return self.choices(name)
        if self.peek().kind != "number":
            return Parameter(name, None, None)
        low, high = self.span()
        return Parameter(name, low, high, (), self.has("ZIPF"))

    def span(self):
        """Two numbers with TO between, of which the second isn't less."""
        low = int(self.next("number").text)
        self.demand("TO")
        token = self.next("number")
        if int(token.text) < low:
            self.fault("%d TO %s has no number" % (low, token.text), token)
        return low, int(token.text)

    def choices(self, name):
        """A parameter with the values that it may have: numbers, or texts."""
        self.demand("(")
        tokens = self.listed(lambda: self.next("text", "number"))
        self.demand(")")
        if len({x.kind for x in tokens}) > 1:
            self.fault("%s has numbers and texts" % name, tokens[0])
        is_number = tokens[0].kind == "number"
        values = tuple(int(x.text) if is_number else x.text for x in tokens)
        return Parameter(name, *((min(values), max(values)) if is_number else (None, None)), values, self.has("ZIPF"))

    def draw(self, line):
        """DRAW 80 (book 35, pay 25) SEED 7;"""
        count, parts, seed = int(self.next("number").text), [], 1
        self.demand("(")
        while True:
            parts.append((self.name(), int(self.next("number").text)))
            if not self.has(","):
                break
        self.demand(")")
        if self.has("SEED"):
            seed = int(self.next("number").text)
        self.demand(";")
        if count < 1 or min(x for _, x in parts) < 1:
            self.fault("a DRAW has 1 call or more, and so has each part", Token("word", "", line))
        return Draw(count, parts, seed, line)

    def call(self, line):
        name, values = self.name(), []
        self.demand("(")
        if not self.has(")"):
            values = self.listed(lambda: self.next("text", "number"))
            self.demand(")")
        self.demand(";")
        return name, values, line

    def statement(self):
        line = self.peek().line
        if self.has("SELECT"):
            made = self.select(line)
        elif self.has("INSERT", "INTO"):
            made = self.insert(line)
        elif self.has("UPDATE"):
            made = self.update(line)
        elif self.has("DELETE", "FROM"):
            name = self.name()
            made = Statement("delete", line, [(name, name)], [], [], self.where())
        else:
            self.fault(STRANGE.get(self.peek().text.upper()) or "%s begins no statement" % self.peek().text)
        self.demand(";")
        return made

    def column(self):
        name = self.name()
        return Column(name, self.name()) if self.has(".") else Column(None, name)

    def select(self, line):
        columns = "*" if self.has("*") else self.listed(self.column)
        if self.has("("):
            self.fault("there are no functions")
        self.demand("FROM")
        tables, conditions = [self.source()], []
        while True:
            if self.has(","):
                tables.append(self.source())
            elif self.has("JOIN") or self.has("INNER", "JOIN"):
                tables.append(self.source())
                self.demand("ON")
                conditions += self.conditions()
            else:
                break
        return Statement("select", line, tables, columns, [], conditions + self.where())

    def source(self):
        name = self.name()
        self.has("AS")
        token = self.peek()
        if token.kind == "word" and token.text.upper() not in STRANGE and token.text.upper() not in ("WHERE", "JOIN", "INNER", "ON"):
            return self.name(), name
        return name, name

    def insert(self, line):
        name, columns = self.name(), None
        if self.has("("):
            columns = self.listed(self.name)
            self.demand(")")
        self.demand("VALUES")
        return Statement("insert", line, [(name, name)], columns, self.listed(self.row), [])

    def row(self):
        """The values of a row; of rows of the database the key may be a span, as 1 TO 50."""
        self.demand("(")
        made = self.listed(self.spanned if self.is_row else self.value)
        self.demand(")")
        return made

    def spanned(self):
        if self.tokens[self.at + 1].text.upper() != "TO":
            return self.value()
        token = self.peek()
        return Token("span", "%d TO %d" % self.span(), token.line)

    def update(self, line):
        name = self.name()
        self.demand("SET")
        return Statement("update", line, [(name, name)], [], self.listed(self.assignment), self.where())

    def assignment(self):
        column = self.name()
        self.demand("=")
        if self.peek().kind != "word":
            return column, "=", self.value()
        if self.name() != column:
            self.fault("a column is set to a value, or to itself plus or minus a number: nothing else is computed")
        sign = self.next("sign", "number")
        if sign.kind == "number" and sign.text.startswith("-"):
            return column, "+", sign
        if sign.text not in "+-":
            self.fault("only a sum or a difference is computed", sign)
        return column, sign.text, self.next("number", "param")

    def where(self):
        return self.conditions() if self.has("WHERE") else []

    def conditions(self):
        made = self.condition()
        while self.has("AND"):
            made += self.condition()
        return made

    def condition(self):
        left = self.column()
        if self.has("BETWEEN"):
            low = self.value()
            self.demand("AND")
            return [Condition(left, ">=", low), Condition(left, "<=", self.value())]
        op = self.next("sign")
        if op.text not in ("=", "<", ">", "<=", ">=", "<>", "!="):
            self.fault("%s is no comparison" % op.text, op)
        shown = "!=" if op.text == "<>" else op.text
        if self.peek().kind != "word":
            return [Condition(left, shown, self.value())]
        if shown != "=":
            self.fault("two columns are compared by = alone", op)
        return [Condition(left, shown, self.column())]


def read_script(path):
    return Reader(path).script()
