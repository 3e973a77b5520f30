"""Which rows the statements of a transaction can touch, by their keys."""
from sdd.judge.effect import key_range
from sdd.model.statements import Put, relations_of

FEW_KEYS = 8


def touched_by(statement, catalogue):
    """For each part a relation, and the least and the greatest key; of a put those of its row."""
    if isinstance(statement, Put):
        key = catalogue.relation[statement.relation].key_of(statement.row)
        return [(statement.relation, key, key)]
    return [(r,) + key_range(statement.conds, part, catalogue.relation[r].key_place) for part, r in enumerate(relations_of(statement))]


def meet(touched, others):
    return any(a == b and max(low, least) <= min(high, greatest) for a, low, high in touched for b, least, greatest in others)


def keys_near(statements, catalogue):
    """For each relation that the statements look at the keys to which they keep, where these are few; else None."""
    made = {}
    for s in statements:
        for relation, low, high in touched_by(s, catalogue) if not isinstance(s, Put) else ():
            keys = set(range(low, high + 1)) if high - low < FEW_KEYS else None
            made[relation] = None if keys is None or made.get(relation, ()) is None else keys | made.get(relation, set())
    return made


def rows_near(near, tables):
    """The rows with these keys; all of a relation without keys."""
    return {r: tables[r] if keys is None else {k: tables[r][k] for k in keys if k in tables[r]} for r, keys in near.items()}
