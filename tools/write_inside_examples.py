#!/usr/bin/env python3
"""Writes WorkedLines.antt and WorkedDowns.antt of crates/sdd_inside_laws/specs: what the definitions print of events of worked logs.

    tools/write_inside_examples.py [--check]

Of some of the workloads of log_examples.py each row has the line of an event, computed from the definitions and as the
reference prints it (`sdd reference inside`). Those of modules that go down stand in a file of their own. `rt fmt` in the crate
lays the files out. With --check nothing is written: it ends with 1 where one would be another.
"""
import argparse
import os
import sys

import sdd_path  # noqa: F401
from log_examples import LOGS
from sdd.model.catalogue import read_catalogue
from sdd.model.workload import read_workload
from sdd.reference.inside import Watch, spelled
from sdd.reference.world import World

FOLDER = os.path.join(os.path.dirname(os.path.abspath(__file__)), "..", "crates", "sdd_inside_laws", "specs")
WIDTH = 100
OF_DOWNS = {"Downs", "HomesDown"}       # the modules of log_examples.py whose lines stand in WorkedDowns.antt

# A log, a name, the event, and what its line shows.
ROWS = [
    ("undeclared", "u_holds", 2, "U: it holds, and both transaction modules lack; a queue grows"),
    ("undeclared", "t_on_hold", 3, "T: on hold, and it answered the HOLD at once"),
    ("undeclared", "u_still_holds", 5, "U: one of two transaction modules lacks still"),
    ("undeclared", "u_reads", 6, "U: its attempt is under way"),
    ("undeclared", "d_waits", 7, "D: a READ that waits for two classes; what waits in a pipe has passed its own time"),
    ("released", "t_owes", 3, "T: asked to hold while an attempt is under way: it owes the HELD"),
    ("released", "u_writes", 26, "U: it writes; a queue gets shorter"),
    ("released", "u_writes_still", 29, "U: one data module said that it applied"),
    ("released", "u_idle", 31, "U: idle once the RELEASE is sent"),
    ("asked_while_active", "t_asked", 8, "T: a question that it can't answer yet"),
    ("waits_for_two", "t_reads", 2, "T: an attempt reads"),
    ("waits_for_two", "d_holds_back", 6, "D: of two conditions one is met, and a WRITE is held"),
    ("waits_for_two", "three_pipes", 8, "pipes: of three classes at once; a head that waited, one that came, one that was held"),
    ("two_steps", "t_fetches", 10, "T: it fetches values"),
    ("two_steps", "t_reduces", 16, "T: it reduces rows"),
    ("second_class_list", "of_a_round", 2, "an event of a round belongs to the redeclare that it comes before"),
    ("second_class_list", "in_force", 4, "a class list is put in force: each transaction module took part"),
    ("second_class_list", "t_ships", 8, "T: it ships rows"),
    ("down_and_up", "goes_down", 2, "a `down` that finds the module up"),
    ("down_and_up", "kept_for_it", 3, "a message arrives for a module that is down, and isn't handed over"),
    ("down_and_up", "comes_up", 5, "an `up` that finds the module down: what was kept is handed over"),
    ("down_twice", "up_already", 1, "an `up` that finds the module up: it found nothing, and no site took part"),
    ("down_twice", "down_already", 3, "a `down` that finds the module down"),
    ("begun_once_up", "t_goes_down", 1, "T: it goes down"),
    ("begun_once_up", "kept_of_u", 3, "a HOLD arrives for a transaction module that is down, and isn't handed over"),
    ("begun_once_up", "t_down_ticks", 4, "T: down, its clock goes on"),
    ("begun_once_up", "t_down_queues", 5, "T: down, its queue grows, and no attempt begins"),
    ("begun_once_up", "t_comes_up", 6, "T: up again; what queued began and committed before the HOLD was handed over"),
    ("rows_kept", "t_down_amid", 5, "T: it goes down while its attempt lacks rows"),
    ("lost_and_repeated", "lost", 3, "links: a packet is lost"),
    ("lost_and_repeated", "repeated", 4, "links: a message that was told before is told by its number"),
    ("lost_and_repeated", "early", 5, "links: a message arrives before an earlier one, which none has passed"),
    ("lost_and_repeated", "sent_again", 6, "links: what isn't acknowledged is sent again"),
    ("lost_and_repeated", "both_handed", 7, "links: two messages are handed over, and both changes applied; the row is told once"),
    ("lost_and_repeated", "nothing_there", 10, "links: no packet is at the place"),
    ("two_at_once", "acknowledged", 4, "links: an acknowledgement of no message"),
    ("deleted_and_put", "row_deleted", 21, "rows: a row that is deleted"),
    ("deleted_and_put", "from_two_links", 25, "what was kept of two links is handed over; the row that a later change deleted stays so"),
]

HEADS = {"WorkedLines": """-- Worked lines, written by tools/write_inside_examples.py: what the definitions print of events of worked logs. A log names
-- nothing; the names stand beside it.
use Rattle.std.specs.Prelude.{ℕ, suc, ◌≡◌, List, [], ◌∷◌, ◌++◌, codes, map, refl}
use Rattle.std.specs.Fmt.{digits}
%s
use Rattle.sdd_app_inside.specs.watch.obligations.All.{Catalogue, Input, Log, Txn}
use Rattle.sdd_inside.specs.Examples.{named, txn}
use Rattle.sdd_inside.specs.Json.{also}
use Rattle.sdd_inside.specs.Lines.{line}
use Rattle.sdd_app_inside.specs.watch.moments.Moments.{at_event}
use Rattle.sdd_app_inside.specs.watch.Text.{change}

-- the line of the event after so many others, by catalogue and transactions with names
abbrev pub line_after : Catalogue → List Txn → Input → Log → ℕ → List ℕ
line_after cat txns g log before = line cat txns (change g (at_event before log) (at_event (suc before) log))
""", "WorkedDowns": """-- Worked lines of modules that go down, written by tools/write_inside_examples.py.
use Rattle.std.specs.Prelude.{◌≡◌, List, [], ◌∷◌, ◌++◌, codes, map, refl}
use Rattle.std.specs.Fmt.{digits}
%s
use Rattle.sdd_app_inside.specs.watch.obligations.All.{Catalogue, Txn}
use Rattle.sdd_inside.specs.Examples.{named, txn}
use Rattle.sdd_inside.specs.Json.{also}
use Rattle.sdd_app_inside.specs.watch.Text.{inside_text}
use Rattle.sdd_inside_laws.specs.WorkedLines.{line_after}

-- a whole text, of a log whose fragment has no name
pub whole_text
    : inside_text input_of_down_twice log_of_down_twice
    ≡ codes "{\\"inside\\":1,\\"tms\\":1,\\"dms\\":1,\\"copies\\":[{\\"at\\":\\"D1\\",\\"fragment\\":\\"\\",\\"rows\\":[]}]}\\n"
    ++ codes "{\\"event\\":1,\\"of\\":1,\\"do\\":\\"up D1\\",\\"nothing\\":true}\\n"
    ++ codes "{\\"event\\":2,\\"of\\":2,\\"do\\":\\"down D1\\",\\"sites\\":[{\\"at\\":\\"D1\\",\\"down\\":true}]}\\n"
    ++ codes "{\\"event\\":3,\\"of\\":3,\\"do\\":\\"down D1\\",\\"nothing\\":true}\\n"
unfolding digits also
whole_text = refl
"""}


def quoted(text):
    return '"%s"' % text.replace("\\", "\\\\").replace('"', '\\"').replace("\n", "\\n")


def pieces(text):
    """The text as `codes ".."`, cut so that lines stay short."""
    cut = [text[k:k + WIDTH] for k in range(0, len(text), WIDTH)]
    return "\n    ++ ".join("codes %s" % quoted(x) for x in cut)


def names(items):
    items = ["codes %s" % quoted(x) for x in items]
    return "(%s)" % " ∷ ".join(items + ["[]"])


def lines_of(cat, work):
    """The line of each event of a run."""
    watch = Watch(World(cat, work))
    return [spelled(watch.line(x)) for x in watch.world.happens()]


def text_of(target):
    logs = {x[0]: x for x in LOGS}
    used = [name for name in dict.fromkeys(x[0] for x in ROWS) if (logs[name][1] in OF_DOWNS) == (target == "WorkedDowns")]
    homes = {}
    for name in used:
        homes.setdefault(logs[name][1], []).extend(["input_of_" + name, "log_of_" + name])
    imports = "\n".join("use Rattle.sdd_log_examples.specs.%s.{%s}" % (x, ", ".join(sorted(homes[x]))) for x in sorted(homes))
    found = [HEADS[target] % imports]
    for name in used:
        cat = read_catalogue(logs[name][3].encode())
        work = read_workload(cat, logs[name][4].encode())
        lines = lines_of(cat, work)
        classes = [x.name for x in cat.classes] + [x.name for more in work.lists for x in more]
        found.append("-- %s\n" % logs[name][2])
        found.append("abbrev catalogue_of_%s : Catalogue\ncatalogue_of_%s = named %d %d %s %s\n" % (
            name, name, cat.tms, cat.dms, names(x.name for x in cat.fragments), names(classes)))
        found.append("abbrev txns_of_%s : List Txn\ntxns_of_%s = map txn %s\n" % (name, name, names(x.name for x in work.txns)))
        for log, row, event, shows in ROWS:
            if log == name:
                found.append("-- %s\npub %s\n    : line_after catalogue_of_%s txns_of_%s input_of_%s log_of_%s %d\n    ≡ %s\nunfolding digits also\n%s = refl\n" % (
                    shows, row, name, name, name, name, event - 1, pieces(lines[event - 1]), row))
    return "\n".join(found)


def same(path, made):
    """Whether the file is that text, as `rt fmt` lays it out."""
    with open(path, encoding="utf-8") as f:
        return "".join(f.read().split()) == "".join(made.split())


def main():
    asked = argparse.ArgumentParser(description=__doc__.split("\n")[0])
    asked.add_argument("--check", action="store_true", help="write nothing")
    asked = asked.parse_args()
    different = 0
    for target in HEADS:
        path, made = os.path.normpath(os.path.join(FOLDER, target + ".antt")), text_of(target)
        if not asked.check:
            with open(path, "w", encoding="utf-8") as f:
                f.write(made)
        elif not same(path, made):
            different += 1
            print("%s would be another" % path)
    return int(different > 0)


if __name__ == "__main__":
    sys.exit(main())
