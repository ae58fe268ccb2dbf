"""Runs the proved program on a job and passes its line on. Where it is: --program, the variable ZHARGUTAI, target/bin/zhargutai, the path."""
import os
import shutil
import subprocess
import time
from collections import namedtuple

from . import ROOT
from .faults import Unread

HOLDS, FAILS, UNDECIDED, REFUSED, NOTHING, LATE = range(6)
STATUS = {"holds": HOLDS, "fails": FAILS, "undecided": UNDECIDED, "refused": REFUSED}
BUILT = "target/bin/zhargutai"

Run = namedtuple("Run", "line status seconds")


class Late(Unread):
    """The program was ended, since its time was over."""


def find(given=None):
    asked = given or os.environ.get("ZHARGUTAI")
    for path in (asked,) if asked else (str(ROOT / BUILT), shutil.which("zhargutai")):
        if path and os.access(path, os.X_OK) and not os.path.isdir(path):
            return path
    raise Unread("there is no program to ask: build it by `tools/build program` (README.md says how long that takes), or name it by --program" if not asked
                 else "is no program that can be run", name=asked or None)


def run(path, job, timeout=None):
    """The program's line for the bytes of a job."""
    began = time.monotonic()
    try:
        done = subprocess.run([path], input=job, capture_output=True, timeout=timeout)
    except subprocess.TimeoutExpired:
        raise Late(f"out of time: no answer within {timeout:g} seconds") from None
    except OSError as error:
        raise Unread(f"cannot be run: {error.strerror}", name=path) from None
    if done.returncode < 0:
        raise Unread(f"ended by signal {-done.returncode}; it needs about 1 MB of stack (`ulimit -s`)", name=path)
    line = done.stdout.decode("ascii", "replace")
    word = line.split(" ")[0]
    if not line.endswith("\n") or word not in STATUS:
        said = done.stderr.decode("utf-8", "replace").strip()
        raise Unread(f"printed no line of its own{': ' + said if said else ''}", name=path)
    return Run(line[:-1], STATUS[word], time.monotonic() - began)


def fields(line):
    """The line's parts by name; None where it is no line of the program."""
    word, *rest = line.split() or [""]
    if word not in STATUS or not rest or not all(r.isdecimal() and r.isascii() for r in rest):
        return None
    numbers = [int(r) for r in rest]
    if word == "refused" and len(numbers) == 3:
        return {"verdict": word, **dict(zip(("number", "source", "place"), numbers))}
    if word == "fails" and len(numbers) > 2:
        return {"verdict": word, "place": numbers[0], "root": numbers[1], "word": numbers[2:]}
    if word in ("holds", "undecided") and len(numbers) == 1:
        return {"verdict": word, "count": numbers[0]}
    return None
