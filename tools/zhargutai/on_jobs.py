"""The commands on one job: job, check, explain, report. Each takes the words of the call and gives its exit status."""
import json
import sys

from . import explain, jobs, program, report
from .faults import Fault, write_file


def write_job(a):
    write_file(a.output, jobs.asked(a).bytes)
    return 0


def line_for(a, job):
    """(line, status, where it is from) for a job: what was given, what the job expects, or what the program says."""
    if a.line or a.expected:
        line = a.line or job.expect
        if not line:
            raise Fault("has no `expect`, which --expected asks for", name=job.name)
        word = line.partition(" ")[0]
        if program.fields(line) is None:
            raise Fault(f"a line of the program was expected, found {line!r}")
        return line, program.STATUS[word], "The line was given, not asked for here." if a.line else "The line is the one recorded in the job's file; the program was not asked here."
    ran = program.run(program.find(a.program), job.bytes, a.timeout)
    return ran.line, ran.status, f"The program said so, in {ran.seconds:.2f} seconds."


def check(a):
    job = jobs.asked(a)
    ran = program.run(program.find(a.program), job.bytes, a.timeout)
    status = ran.status
    if a.nonempty and ran.line == "holds 0":
        status = program.FAILS
        print("zt: the start set has no state, and --nonempty asks for one", file=sys.stderr)
    if a.json:
        print(json.dumps({"line": ran.line, "status": status, "seconds": round(ran.seconds, 3), **(program.fields(ran.line) or {})}))
    else:
        print(ran.line)
    return status


def explain_job(a):
    job = jobs.asked(a)
    line, status, _ = line_for(a, job)
    print(line)
    print(explain.as_text(explain.explained(line, *job[1:6])), end="")
    return status


def report_job(a):
    job = jobs.asked(a)
    line, status, asked = line_for(a, job)
    write_file(a.output, report.page(job.name, line, asked, *job[1:6]).encode())
    print(line, file=sys.stderr if a.output in (None, "-") else sys.stdout)
    return status
