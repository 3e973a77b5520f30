"""Class lists: which catalogue is in force when.

With each list the classes before it retire: they keep their numbers and names, and read and write nothing. Definition:
crates/sdd_catalog/specs/Eras.antt; docs/FORMATS.md, `redeclare`.
"""
from dataclasses import replace

from sdd.reference.plain import class_for


def eras(cat, lists):
    """The catalogues in force, one after the other; the last one has the classes of all lists."""
    found = [cat]
    for classes in lists:
        retired = [replace(c, reads=[], writes=[]) for c in found[-1].classes]
        found.append(cat.with_classes(retired + classes))
    return found


def classes_submitted(cat, work):
    """The class of each submitted transaction, by the list in force when it is submitted."""
    found, catalogues, found_in = {}, eras(cat, work.lists), 0
    for event in work.events:
        found_in += event.word == "redeclare"
        if event.word == "submit":
            found[event.txn] = class_for(catalogues[found_in], work.txns[event.txn - 1])
    return found
