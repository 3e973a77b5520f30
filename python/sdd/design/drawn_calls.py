"""The calls that a DRAW of a script stands for.

    for name, values, line in Drawn(translator).calls(draw): ..

Which transaction is called follows the parts that DRAW gives them. A parameter that is the key of an inserted row gets the
next key of its range that no row has; one that is compared by = with the key of a table gets the key of a row there, if one
lies in its range, and any other a value of its range or of its list. With ZIPF the first are drawn more often: the n-th one
with the weight 1/n. Keys of one table differ within a call.
"""
import random

from sdd.design.sql_parts import Column, Token


class Drawn:
    def __init__(self, translator):
        self.of, self.keys, self.next = translator, {}, {}
        for s in translator.script.rows:
            table = translator.table(s.tables[0][1], s.line)
            place = (s.columns or [x for x, _ in table.columns]).index(table.key)
            self.keys.setdefault(table.name, set()).update(int(x[place].text) for x in s.values)

    def calls(self, draw):
        rng = random.Random(draw.seed)
        for name, _ in draw.parts:
            if name not in self.of.script.procedures:
                self.of.fault(draw.line, "there is no transaction %s" % name)
        names, weights = zip(*draw.parts)
        for name in rng.choices(names, weights, k=draw.count):
            procedure = self.of.script.procedures[name]
            yield name, self.values(procedure, rng, draw.line), draw.line

    def values(self, procedure, rng, line):
        roles, taken, made = self.roles(procedure), {}, []
        for parameter in procedure.parameters:
            role, table = roles.get(parameter.name, (None, None))
            others = taken.setdefault(table, set())
            value = self.fresh(parameter, table, line) if role == "new" else self.one(parameter, table, others, rng, line)
            if role:
                others.add(value)
            made.append(Token("number", "%d" % value, line) if isinstance(value, int) else Token("text", value, line))
        return made

    def roles(self, procedure):
        """Parameter -> whether it is a new key or one that is there, and of which table."""
        found = {}
        for s in procedure.statements:
            for k, (_, name) in enumerate(s.tables, 1):
                table = self.of.table(name, s.line)
                if s.kind == "insert":
                    place = (s.columns or [x for x, _ in table.columns]).index(table.key)
                    found |= {row[place].text: ("new", name) for row in s.values if row[place].kind == "param"}
                for c in s.conditions:
                    if c.op == "=" and not isinstance(c.right, Column) and c.right.kind == "param" and self.of.ref(s, c.left) == (k, table.key):
                        found.setdefault(c.right.text, ("key", name))
        return found

    def demand_values(self, parameter, line):
        if parameter.low is None and not parameter.choices:
            self.of.fault(line, "which values %s has isn't known: write `%s 1 TO 100` or `%s IN (..)` in its transaction" % ((parameter.name,) * 3))

    def fresh(self, parameter, table, line):
        """The next key of the range that no row has."""
        self.demand_values(parameter, line)
        have = self.keys.setdefault(table, set())
        low, high = (parameter.low, parameter.high) if not parameter.choices else (min(parameter.choices), max(parameter.choices))
        key = max(low, self.next.get((table, low), low))
        while key in have:
            key += 1
        if key > high:
            self.of.fault(line, "%s has no key left that no row of %s has" % (parameter.name, table))
        have.add(key)
        self.next[table, low] = key + 1
        return key

    def one(self, parameter, table, others, rng, line):
        self.demand_values(parameter, line)
        if parameter.choices:
            possible = [x for x in parameter.choices if x not in others]
        else:
            there = sorted(k for k in self.keys.get(table, ()) if parameter.low <= k <= parameter.high)
            possible = [x for x in there or range(parameter.low, parameter.high + 1) if not others or x not in others]
        if not possible:
            self.of.fault(line, "%s has no value that another key of the call doesn't have" % parameter.name)
        if not parameter.is_skewed:
            return rng.choice(possible)
        return rng.choices(possible, [1 / k for k in range(1, len(possible) + 1)])[0]
