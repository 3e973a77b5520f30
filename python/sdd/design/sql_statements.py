"""Statements of SQL as a workload has them, for a transaction that is typed into a page.

    lines = workload_statements(catalogue, ["SELECT cents FROM price WHERE item = 1;"])

Lines that are no SQL stay as they are. What isn't in the subset of sdd from-sql is refused by `BadInput`, with the number of the line.
"""
import os
import re
import tempfile

from sdd.design.from_sql import Translator
from sdd.model.files import BadInput, write_text

SQL = re.compile(r"\s*(select\b|insert\b|delete\s+from\b|update\s+\w+\s+set\s+[a-z_])", re.IGNORECASE)
FAULT = re.compile(r".*?: line (\d+): (.*)", re.DOTALL)
KINDS = {"int": "INT", "text": "TEXT"}


def workload_statements(catalogue, lines):
    if not any(SQL.match(x) for x in lines):
        return lines
    head = [table_of(x) for x in catalogue.relations] + ["TRANSACTION typed() AT T1;"]
    body = list(lines)
    if not body[-1].rstrip().endswith(";"):
        body[-1] += ";"
    with tempfile.TemporaryDirectory(prefix="typed-") as folder:
        path = os.path.join(folder, "typed.sql")
        write_text(path, "\n".join(head + body + ["COMMIT;", ""]))
        try:
            translator = Translator(path)
            return [line for s in translator.script.procedures["typed"].statements for line in translator.statement(s, {})]
        except BadInput as fault:
            found = FAULT.fullmatch(str(fault))
            line = int(found[1]) - len(head)
            raise BadInput("line %d, `%s`: %s" % (line, lines[line - 1], found[2]) if 1 <= line <= len(lines) else found[2]) from None


def table_of(relation):
    columns = ["%s %s%s" % (x, KINDS[kind], " PRIMARY KEY" if x == relation.key else "") for x, kind in relation.columns]
    return "CREATE TABLE %s (%s) AT D1;" % (relation.name, ", ".join(columns))
