"""Twelve exercises that judge themselves, from a read that waits to an application in which nobody does.

    sdd exercise                            lists them
    sdd exercise N [--into FOLDER]          says what N asks for; with --into writes what it begins with
    sdd exercise N FILE [FILE ..]           judges what was handed in, a line for each; status 0 where all are right
    sdd exercise N --hint                   says how to begin

A hand-in is a workload, a report or a catalogue, as the exercise says, or a folder that has one by that name. A workload
has the rows and the transactions of the exercise, and any events. The reference of this package judges.
"""
import os

from sdd.command import parser
from sdd.design.latency_tables import print_table
from sdd.model.files import BadInput, text_of, write_text
from sdd.teach.exercises import CATALOGUE, EXERCISES, judge_text, start_text

HOW = {
    "workload": "make a schedule:   sdd play {0}/catalogue.toml {0}/workload\nand save it as a workload (a button of the page), or write the events with an editor. Judge it:",
    "report": "look at it:        sdd page {0}/catalogue.toml {0}/workload\nand write {0}/report with an editor. Judge it:",
    "catalogue.toml": "what waits:        sdd table {0}/catalogue.toml        sdd advise {0}/catalogue.toml\nand change that catalogue. Judge it:"}


def list_all():
    print_table([["%d" % k, x.title, "hand in: %s" % x.takes] for k, x in enumerate(EXERCISES, 1)], left=3)
    print("\nsdd exercise N says what N asks for")


def folded(text, width=100):
    lines, line = [], ""
    for word in text.split(" "):
        if line and len(line) + 1 + len(word) > width:
            lines.append(line)
            line = ""
        line += " " * bool(line) + word
    return "\n".join(lines + [line])


def tell(number, exercise, folder):
    print("%d  %s\n\n%s\n" % (number, exercise.title, folded(exercise.task)))
    if not folder:
        print("Get the files:     sdd exercise %d --into FOLDER" % number)
    shown = folder or "FOLDER"
    made = os.path.join(shown, exercise.takes) if exercise.takes != "workload" else "FILE"
    print((HOW[exercise.takes] + "  sdd exercise %d %s" % (number, made)).replace("{0}", shown))


def write_start(exercise, folder):
    """The files of an exercise; what is there already isn't overwritten."""
    os.makedirs(folder, exist_ok=True)
    for name, start in ((CATALOGUE, exercise.catalogue), ("workload", exercise.workload)):
        path = os.path.join(folder, name)
        text = start_text(start)
        if os.path.exists(path) and text_of(path) != text:
            raise BadInput("%s is there already, and isn't what the exercise begins with" % path)
        write_text(path, text)


def handed_in(exercise, path):
    """The text of a hand-in; a folder has it by the name that the exercise says."""
    return text_of(os.path.join(path, exercise.takes) if os.path.isdir(path) else path)


def judge_all(exercise, paths):
    rows, wrong = [], 0
    for path in paths:
        try:
            faults = judge_text(exercise, handed_in(exercise, path))
        except BadInput as fault:
            faults = [str(fault).removeprefix(path).lstrip(": ")]
        wrong += bool(faults)
        rows.append([path, "not yet" if faults else "right", "; ".join(faults)])
    print_table(rows, left=3)
    if len(paths) > 1:
        print("\n%d of %d are right" % (len(paths) - wrong, len(paths)))
    return int(wrong > 0)


def main():
    asked = parser(__doc__)
    asked.add_argument("number", metavar="N", nargs="?")
    asked.add_argument("files", metavar="FILE", nargs="*")
    asked.add_argument("--into", metavar="FOLDER")
    asked.add_argument("--hint", action="store_true")
    asked = asked.parse_args()
    if asked.number is None:
        list_all()
        return 0
    if not asked.number.isdigit() or not 1 <= int(asked.number) <= len(EXERCISES):
        raise BadInput("%s is no exercise; there are 1 to %d" % (asked.number, len(EXERCISES)))
    number = int(asked.number)
    exercise = EXERCISES[number - 1]
    if asked.files:
        return judge_all(exercise, asked.files)
    if asked.into:
        write_start(exercise, asked.into)
    tell(number, exercise, asked.into)
    if asked.hint:
        print("\n" + folded(exercise.hint))
    return 0
