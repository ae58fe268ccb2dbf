"""The commands of tools/zt and their exit status: 0 well, 1 fails, 2 undecided, 3 refused, 4 nothing could be read or written, 5 out of time."""
import argparse
import sys

from . import batch, on_jobs, on_sets, program, states, version
from .faults import Fault
from .jobtext import ALL
from .showing import MARKS

STATUSES = "exit status: 0 holds, 1 fails, 2 undecided, 3 refused, 4 nothing could be read or written, 5 out of time"


def number(most):
    def read(word):
        if not word.isdigit() or int(word) > most:
            raise argparse.ArgumentTypeError(f"a number of at most {most} was expected, found {word!r}")
        return int(word)
    return read


def seconds(word):
    try:
        value = float(word)
    except ValueError:
        value = 0
    if not 0 < value < 1e7:
        raise argparse.ArgumentTypeError(f"a number of seconds was expected, found {word!r}")
    return value


class Parser(argparse.ArgumentParser):
    """A wrong call ends with status 4: nothing was read."""

    def error(self, message):
        self.print_usage(sys.stderr)
        print(f"zt: {message}", file=sys.stderr)
        sys.exit(program.NOTHING)


def of_job(p, line=False):
    p.add_argument("job", nargs="?", help="a job in one file, text or packed")
    for name in ("start", "circuit", "end"):
        p.add_argument(f"--{name}", metavar="FILE", help=f"the {name}{'' if name == 'circuit' else ' set'}, text or packed")
    p.add_argument("--allow", type=number(ALL), metavar="B", help="the most starts that are examined (otherwise the job's, or 4294967295)")
    p.add_argument("--mark", choices=[m.decode() for m in MARKS], help="the job's mark, JB where nothing is said; with JQ the circuit is passed on as it is")
    if line:
        p.add_argument("--line", help="a line that the program printed; it is then not asked")
        p.add_argument("--expected", action="store_true", help="take the line that the job's file expects; the program is not asked")
    of_program(p)


def of_program(p):
    p.add_argument("--program", metavar="FILE", help="the program, otherwise $ZHARGUTAI, target/bin/zhargutai or one on the path")
    p.add_argument("--timeout", type=seconds, metavar="S", help="seconds after which the program is ended (status 5)")


def parser():
    top = Parser(prog="zt", description=__doc__, epilog="docs/TUTORIAL.md shows them at work.")
    top.add_argument("--version", action="version", version=f"zt {version()}")
    commands = top.add_subparsers(dest="command", required=True, metavar="COMMAND", parser_class=Parser)

    def command(name, run, help, **more):
        p = commands.add_parser(name, help=help, description=help, **more)
        p.set_defaults(run=run)
        return p

    def out(p):
        p.add_argument("-o", "--output", metavar="FILE", help="otherwise standard output")

    for name, run, help in (("pack", on_sets.pack, "a text of a set, a circuit or a job to bytes"), ("show", on_sets.show, "bytes to text")):
        p = command(name, run, help)
        p.add_argument("file", help="- is standard input")
        p.add_argument("--as", dest="kind", choices=("set", "circuit", "job"), help="what it is, where that cannot be seen")
        out(p)
        if name == "show":
            p.add_argument("--bytes", action="store_true", help="record by record: offset, bytes, meaning")
    p = command("job", on_jobs.write_job, "start, circuit and end to the bytes that the program reads")
    of_job(p)
    out(p)
    p = command("check", on_jobs.check, "asks the program and prints its line", epilog=STATUSES)
    of_job(p)
    p.add_argument("--json", action="store_true", help="the line and its parts as JSON")
    p.add_argument("--nonempty", action="store_true", help="a start set with no state is a failure")
    p = command("explain", on_jobs.explain_job, "the program's line in words", epilog=STATUSES)
    of_job(p, line=True)
    p = command("report", on_jobs.report_job, "one HTML page on a job: line, words, pictures", epilog=STATUSES)
    of_job(p, line=True)
    out(p)
    p = command("lint", on_sets.lint_set, "what is wrong with a set file, record by record; status 1 if something is")
    p.add_argument("set")
    p.add_argument("--end", action="store_true", help="by the bounds of an end set")
    p.add_argument("--most", type=number(10 ** 6), default=20, help="faults that are listed")
    of_program(p)
    p = command("states", on_sets.list_states, "the states of a set, with root and word")
    p.add_argument("set")
    p.add_argument("--most", type=number(10 ** 6), default=64, help="states that are listed")
    p.add_argument("--kets", type=number(states.TERMS), default=states.SHOWN, help="kets of a state that are listed")
    p = command("sizes", on_sets.list_sizes, "states and transitions after each gate: where refusal 14 will come")
    p.add_argument("start")
    p.add_argument("circuit")
    p = command("draw", on_sets.draw_set, "a picture of a set, in SVG")
    p.add_argument("set")
    out(p)
    p = command("batch", batch.run, "all jobs of a folder", epilog=STATUSES + "; the worst of them is given")
    p.add_argument("folder")
    p.add_argument("-j", "--jobs", type=number(256), default=1, metavar="N", help="so many at a time")
    p.add_argument("--expect", action="store_true", help="compare each line with the job's `expect`")
    p.add_argument("--nonempty", action="store_true", help="a start set with no state is a failure")
    of_program(p)
    return top


def main(words):
    a = parser().parse_args(words)
    try:
        status = a.run(a)
        sys.stdout.flush()
        return status
    except program.Late as late:
        print(f"zt: {late}", file=sys.stderr)
        return program.LATE
    except Fault as fault:
        print(f"zt: {fault}", file=sys.stderr)
        return program.NOTHING
    except BrokenPipeError:
        sys.stderr.close()
        return program.NOTHING
    except KeyboardInterrupt:
        return program.NOTHING
