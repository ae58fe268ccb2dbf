"""A folder of jobs, some at a time: a line for each in the folder's order, progress on a terminal, a summary, and the worst status."""
import sys
import time
from collections import Counter
from concurrent.futures import ThreadPoolExecutor

from . import jobs, program
from .faults import Fault

WORDS = ("hold", "fail", "are undecided", "are refused", "gave no line", "ran out of time")


def one(path, arguments, asked):
    """(status, line to print) of one job."""
    try:
        job = jobs.whole(path)
        ran = program.run(asked, job.bytes, arguments.timeout)
    except program.Late as late:
        return program.LATE, str(late)
    except Fault as fault:
        return program.NOTHING, str(fault)
    status = program.FAILS if arguments.nonempty and ran.line == "holds 0" else ran.status
    if not arguments.expect:
        return status, ran.line
    if job.expect is None:
        return program.NOTHING, f"{ran.line}, and the job has no `expect`"
    return (program.HOLDS, ran.line) if job.expect == ran.line else (program.FAILS, f"{ran.line}, expected {job.expect}")


def run(arguments):
    asked, paths, began = program.find(arguments.program), jobs.in_folder(arguments.folder), time.monotonic()
    seen, terminal = Counter(), sys.stderr.isatty()
    if terminal:
        print(f"0 of {len(paths)}", end="", file=sys.stderr, flush=True)
    with ThreadPoolExecutor(max(1, arguments.jobs)) as pool:
        for done, (path, (status, line)) in enumerate(zip(paths, pool.map(lambda p: one(p, arguments, asked), paths)), 1):
            seen[status] += 1
            if terminal:
                left = (time.monotonic() - began) / done * (len(paths) - done)
                print(f"\r\033[K{done} of {len(paths)}, about {left:.0f} s left", end="", file=sys.stderr, flush=True)
            print(("\r\033[K" if terminal and sys.stdout.isatty() else "") + f"{path}: {line}", flush=True)
    if terminal:
        print("\r\033[K", end="", file=sys.stderr)
    what = ("as expected", "not as expected", "", "", *WORDS[4:]) if arguments.expect else WORDS
    print(f"{len(paths)} jobs: " + ", ".join(f"{seen[s]} {what[s]}" for s in sorted(seen)))
    return max(seen)
