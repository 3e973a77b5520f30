"""What `sdd explore` does where times of links are given: all figures are in milliseconds."""
import os
import tempfile

from sdd.command import count
from sdd.design.curves import draw_curves
from sdd.design.latency_tables import as_json, kinds_of_designs, print_times, write_csv
from sdd.design.milliseconds import Design, explore_times
from sdd.design.times import demand_sites, near_of, number_of, read_times, service_of
from sdd.model.files import BadInput, write_text
from sdd.programs import Program, named

ONLY_ROUNDS = (("pace", "--pace"), ("faults", "--faults"), ("events", "--events"))
MANY_KINDS = 24


def add_times(asked):
    """The options by which the times of links are given."""
    asked.add_argument("--times", metavar="FILE", help="a TOML file of places, distances, service and arrivals")
    asked.add_argument("--link", metavar="MS", type=number_of, help="milliseconds between two sites (20)")
    asked.add_argument("--near", metavar="T1-D1=MS", type=near_of, action="append", default=[], help="between two sites; again and again")
    asked.add_argument("--jitter", metavar="PERCENT", type=number_of, help="up to so many percent more, drawn (10)")
    asked.add_argument("--loss", metavar="PERCENT", type=number_of, help="of 100 packets so many are lost (0)")
    asked.add_argument("--resend", metavar="MS", type=number_of, help="what isn't acknowledged after so long is sent again (200)")
    asked.add_argument("--service", metavar="D1=MS", type=service_of, action="append", default=[], help="how long a site handles a message; D or T for all")
    asked.add_argument("--every", metavar="MS", type=number_of, help="between two submissions, on the average (10)")
    asked.add_argument("--rate", metavar="N", type=number_of, help="submissions in a second, in place of --every")
    asked.add_argument("--check", metavar="N", type=count, help="how many of the runs `sdd1` carries out too")
    asked.add_argument("--json", action="store_true", help="print JSON")
    asked.add_argument("--csv", action="store_true", help="print CSV, a line for each class")
    asked.add_argument("--worst", metavar="FILE", help="write the run with the slowest transaction, as a workload")


def is_timed(asked):
    return asked.times is not None or asked.link is not None or bool(asked.near) or bool(asked.service)


def demand_timed(asked):
    """Refuses options of the one way with the other."""
    if not is_timed(asked):
        given = [x for x in ("jitter", "loss", "resend", "every", "rate", "check", "worst") if getattr(asked, x) is not None] + ["csv"] * asked.csv
        if given:
            raise BadInput("--%s is for times of links: give --link, --near or --times too" % given[0])
        return
    for field, word in ONLY_ROUNDS:
        if getattr(asked, field):
            raise BadInput("%s is for rounds, and not for times of links" % word)
    if asked.json and asked.csv:
        raise BadInput("--json or --csv, one of them")


def times_of(asked):
    return read_times(asked.times, asked.link, asked.near, asked.service, asked.jitter, every_of_words(asked), asked.loss, asked.resend)


def every_of_words(asked):
    """The milliseconds between two submissions, where the command line says them."""
    if asked.rate is None:
        return asked.every
    if asked.every is not None or not asked.rate:
        raise BadInput("--rate is more than 0, and stands in place of --every")
    return 1000 / asked.rate


def share(runs, program):
    """How many runs the program carries out: a fiftieth, and by the reference, which is slow, one."""
    return min(runs, 1 if program.command is None else max(2, min(20, runs // 50)))


def explore(asked, tell):
    designs = [Design.of_files(*pair) for pair in zip(asked.files[0::2], asked.files[1::2])]
    distances = times_of(asked)
    demand_sites(asked.near, asked.service, [x.cat for x in designs])
    if asked.by is None:
        asked.by = "kind" if len(designs) == 2 and kinds_of_designs(designs) <= MANY_KINDS else "class"
    program = Program(asked.program)
    checks = share(asked.runs, program) if asked.check is None else asked.check
    with tempfile.TemporaryDirectory(prefix="explore-") as folder:
        found = [explore_times(x, distances, asked.by, asked.runs, asked.seed, checks, program, folder, tell) for x in designs]
    tell("")
    if asked.json:
        print(as_json(found, distances))
    elif asked.csv:
        write_csv(found)
    else:
        print_times(found, distances, "the reference" if program.command is None else os.path.basename(named(program_words(program))))
    write_files(asked, designs, found, distances)


def program_words(program):
    return [program.command] if isinstance(program.command, str) else program.command


def write_files(asked, designs, found, distances):
    if asked.picture:
        write_text(asked.picture, draw_curves(found[:2]))
    if asked.worst:
        run = designs[-1].run(distances, "%d %d" % (asked.seed, found[-1].latencies.slowest[1]), is_traced=True)
        write_text(asked.worst, designs[-1].text_of_run(run))
        if not asked.json and not asked.csv:
            print("\n%s: the run in which %s took %.1f ms; `sdd run` and `sdd page` take it with %s" % (
                asked.worst, found[-1].latencies.slowest[2], found[-1].latencies.slowest[0], asked.files[-2]))
