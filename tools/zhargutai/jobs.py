"""A job from whatever the caller has: one file with all of it, or start, circuit and end, each as text or as bytes."""
import os
from collections import namedtuple

from . import text
from .faults import Fault, Unread, read_file, text_of
from .jobtext import ALL, JobText
from .showing import job_bytes, parts_of_job

Job = namedtuple("Job", "name mark allow start circuit end expect bytes")


def part(path, kind, verbatim=False):
    """A set or a circuit as the program reads it. A file that is no text is passed on as it is, whatever it holds."""
    b = read_file(path)
    if verbatim or not text.is_text(b) or not b.strip():
        return b
    return text.pack(b, path, kind)[1]


def beside(path):
    """Reads the files that a job's text names, from the folder of the text."""
    folder = os.path.dirname(path) if path != "-" else ""
    return lambda name, kind, verbatim: part(os.path.join(folder, name), kind, verbatim)


def whole(path):
    """A job from one file."""
    b = read_file(path)
    expect = None
    if text.is_text(b):
        try:
            job = JobText([(at, line.rstrip("\r")) for at, line in text_of(b, path)], beside(path))
            b, expect = job.bytes(), job.expect
        except Fault as fault:
            if fault.name is None:
                fault.name = path
            raise
    parts = parts_of_job(b) or (b[:2], 0, b"", b"", b"")
    return Job(path, *parts, expect, b)


def asked(arguments):
    """The job that a command's words name."""
    given = [getattr(arguments, name) for name in ("start", "circuit", "end")]
    if arguments.job and any(given):
        raise Fault("either one job or --start, --circuit and --end was expected, found both")
    if not arguments.job and not all(given):
        raise Fault("a job was expected: one file, or --start, --circuit and --end")
    if arguments.job:
        job = whole(arguments.job)
        if parts_of_job(job.bytes) is None:
            return job
    else:
        mark = (arguments.mark or "JB").encode()
        start, circuit, end = part(given[0], "set"), part(given[1], "circuit", mark == b"JQ"), part(given[2], "set")
        job = Job(" ".join(given), mark, ALL, start, circuit, end, None, b"")
    mark = arguments.mark.encode() if arguments.mark else job.mark
    allow = job.allow if arguments.allow is None else arguments.allow
    return job._replace(mark=mark, allow=allow, bytes=job_bytes(mark, allow, job.start, job.circuit, job.end))


def in_folder(folder):
    """The jobs of a folder, by name: texts (.zt) and packed ones (.job)."""
    try:
        names = sorted(name for name in os.listdir(folder) if name.endswith((".zt", ".job")))
    except OSError as error:
        raise Unread(f"cannot be read: {error.strerror}", name=folder) from None
    if not names:
        raise Unread("has no job, no file that ends in .zt or .job", name=folder)
    return [os.path.join(folder, name) for name in names]
