"""Writes files that are made again and again, and never over what was edited by hand.

    told = write_kept(folder, {"catalogue.toml": text, "workload": text})

The folder's file .made has the digests of what was written there. A file that isn't as it was written stays, and the new text
goes beside it: catalogue.new.toml, workload.new. Returned is a line for each of these.
"""
import hashlib
import json
import os

from sdd.model.files import text_of, write_text

MADE = ".made"


def digest(text):
    return hashlib.sha256(text.encode()).hexdigest()


def beside(name):
    stem, dot, ending = name.partition(".")
    return stem + ".new" + dot + ending


def read_made(path):
    try:
        made = json.loads(text_of(path)) if os.path.exists(path) else {}
    except ValueError:
        made = {}
    return made if isinstance(made, dict) else {}


def write_kept(folder, texts):
    os.makedirs(folder, exist_ok=True)
    made, told = read_made(os.path.join(folder, MADE)), []
    for name, text in texts.items():
        path = os.path.join(folder, name)
        there = text_of(path) if os.path.exists(path) else None
        if there in (None, text) or made.get(name) == digest(there):
            write_text(path, text)
            made[name] = digest(text)
            continue
        other = os.path.join(folder, beside(name))
        write_text(other, text)
        told.append("%s was edited by hand, and stays; what the script makes now is %s" % (path, other))
    write_text(os.path.join(folder, MADE), json.dumps(made, indent=1) + "\n")
    return told
