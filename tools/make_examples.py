#!/usr/bin/env python3
"""Makes the reports and pictures of examples/, or compares them with what is there.

    tools/make_examples.py [--program COMMAND] [--only NAME ..] [--check]

Of each example the program COMMAND (a built `sdd1`; without it `rt try`, minutes for each example) gives
the report of its workload, or the advice on its catalogue where it has no workload; sdd picture
and sdd graph-picture draw `picture.svg` and, where `dot` of Graphviz is installed, `graph.svg`.
Of the example `sql` catalogue and workload are translated from its script. Of the known applications they
are made too, with the catalogue of the first design (`first.toml`), and with `waits.svg` and `times.svg`, in which
sdd explore compares the two.

With --check nothing is written, and each file that would change is reported; `graph.svg` is left out then,
since it depends on the version of `dot` and its fonts, and `waits.svg` and `times.svg`, since they take long. The folder
examples/broken is that of tools/make_broken.py.
"""
import os
import shutil
import subprocess
import tempfile

import sdd_path  # noqa: F401
from sdd.bench.make_workload import APPLICATIONS, write_workload
from sdd.command import parser, start
from sdd.model.files import BadInput
from sdd.model.reading import catalogue_at
from sdd.programs import ROOT, add_program, own_command, run_program

EXAMPLES = os.path.join(ROOT, "examples")
WINDOWS = {                 # the examples of which a part is drawn
    "bank": ["--from", "3000", "--to", "3080"], "smallbank": ["--from", "60", "--to", "160"], "tatp": ["--from", "60", "--to", "160"],
    "tpcc": ["--from", "60", "--to", "160"], "ycsb": ["--from", "60", "--to", "160"],
}
MADE = {"bank": 300, "smallbank": 40, "tatp": 40, "tpcc": 40, "ycsb": 40}       # the made ones, with their transactions


def draw(command, words):
    done = subprocess.run(own_command(command) + words, stdout=subprocess.DEVNULL, stderr=subprocess.PIPE)
    if done.returncode:
        raise BadInput(done.stderr.decode(errors="replace").strip())


def write(folder, name, text):
    """The path of the file that is written."""
    path = os.path.join(folder, name)
    with open(path, "w", encoding="utf-8", newline="\n") as f:
        f.write(text)
    return path


def make(name, program, folder, check):
    """Makes the files of an example in the folder; their names."""
    mine = os.path.join(EXAMPLES, name)
    catalogue, workload = os.path.join(mine, "catalogue.toml"), os.path.join(mine, "workload")
    made, more = ["report", "picture.svg"], ["--program", program] if program else []
    if name in MADE:
        catalogue, workload = write_workload(folder, name, MADE[name])
        made += ["workload"] if name == "bank" else ["catalogue.toml", "workload"]      # that of the bank has comments, and is kept by hand
    if name == "sql":
        draw("from-sql", [os.path.join(mine, "bank.sql"), "--into", folder])
        made += ["catalogue.toml", "workload"]
        catalogue, workload = os.path.join(folder, "catalogue.toml"), os.path.join(folder, "workload")
    if name in APPLICATIONS:
        made += compare_designs(name, program, folder, check)
    if os.path.exists(workload):
        report = write(folder, "report", run_program(program, ["run", catalogue, workload]))
        draw("picture", [report, catalogue, workload, "--into", os.path.join(folder, "picture.svg")] + more + WINDOWS.get(name, []))
    else:
        made = ["advice"]
        write(folder, "advice", run_program(program, ["advise", catalogue]))
    if shutil.which("dot") and not check:
        draw("graph-picture", [catalogue, "--into", os.path.join(folder, "graph.svg")] + more)
        made.append("graph.svg")
    return made


def compare_designs(name, program, folder, check):
    """Makes the catalogue of the first design, and the picture that compares it with the last one."""
    files, application = [], APPLICATIONS[name][0]
    for design in ("first", application.USUAL):
        files += write_workload(os.path.join(folder, design), name, 80, design=design)
    shutil.copyfile(files[0], os.path.join(folder, "first.toml"))
    if check:
        return ["first.toml"]
    words = ["--pace", "6", "--picture", os.path.join(folder, "waits.svg")] + (["--program", program] if program else [])
    draw("explore", files + words)
    near = [x for k in range(1, 5) for x in ("--near", "T%d-D%d=0.2" % (k, k))][:2 * catalogue_at(files[2]).dms]
    draw("explore", files + words[4:] + ["--link", "20", "--runs", "50", "--by", "kind", "--picture", os.path.join(folder, "times.svg")] + near)
    return ["first.toml", "waits.svg", "times.svg"]


def same(a, b):
    if not os.path.exists(b):
        return False
    with open(a, "rb") as f, open(b, "rb") as g:
        return f.read() == g.read()


def renew(name, program, check):
    """Makes an example anew, and takes over the files that differ, but where they are only reported; how many these are."""
    with tempfile.TemporaryDirectory(prefix="examples-") as folder:
        new = [x for x in make(name, program, folder, check) if not same(os.path.join(folder, x), os.path.join(EXAMPLES, name, x))]
        for file in new:
            print("%s/%s %s" % (name, file, "differs" if check else "is new"), flush=True)
            if not check:
                shutil.copyfile(os.path.join(folder, file), os.path.join(EXAMPLES, name, file))
    return len(new)


def main():
    asked = parser(__doc__)
    add_program(asked)
    names = sorted(x for x in os.listdir(EXAMPLES) if os.path.exists(os.path.join(EXAMPLES, x, "catalogue.toml")))
    asked.add_argument("--only", metavar="NAME", nargs="+", choices=names, help="these examples alone")
    asked.add_argument("--check", action="store_true", help="compare, and write nothing")
    asked = asked.parse_args()
    different = sum(renew(name, asked.program, asked.check) for name in asked.only or names)
    print("%d examples, %d files %s" % (len(asked.only or names), different, "differ" if asked.check else "written"))
    return 1 if asked.check and different else 0


if __name__ == "__main__":
    start(main)
