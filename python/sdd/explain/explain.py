"""Explains a line by which `sdd1` refuses a file, or one that `sdd robust` prints.

    sdd explain LINE CATALOGUE [WORKLOAD]

as in  sdd explain "workload: line 5: BadLine" catalogue.toml workload

    sdd explain "snapshot isolation: not robust"

LINE is what stands on standard error, or `-`: then it is read from standard input, so that
`sdd1 run CAT WORK 2>&1 >report | sdd explain - CAT WORK` explains a call that failed. A line of `control`
takes its file alone. Printed are the line of the file with a mark under what is wrong; what is wrong there; and
what helps. The other commands of `sdd` print the same by themselves.
"""
import sys

from sdd.command import parser
from sdd.explain.refusals import Given, has_colours, refusal_of, shown
from sdd.explain.rules import PIVOT, SNAPSHOTS, WITHOUT_FILE
from sdd.model.files import BadInput


def explain(line, paths, colours=False):
    """The lines that are reported."""
    if line in WITHOUT_FILE:
        return ["%s: %s" % (line, WITHOUT_FILE[line])]
    if line in SNAPSHOTS or line.startswith("pivot "):
        return ["%s: %s" % (line, SNAPSHOTS.get(line, PIVOT))]
    if line.startswith("usage:"):
        return ["these words are none of the forms of a call; docs/FORMATS.md, \"Words\", has all of them"]
    return shown(refusal_of(line, [Given(x) for x in paths]), colours)


def main():
    asked = parser(__doc__)
    asked.add_argument("line", metavar="LINE")
    asked.add_argument("files", metavar="FILE", nargs="*")
    asked = asked.parse_args()
    if len(asked.files) > 2:
        raise BadInput("it takes a line, a catalogue and a workload")
    line = sys.stdin.readline() if asked.line == "-" else asked.line
    print("\n".join(explain(line.strip(), asked.files, has_colours(sys.stdout))))
