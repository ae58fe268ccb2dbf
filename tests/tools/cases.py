"""Every set of a file of cases (tests/reference/gate_cases.py, check_cases.py) goes to text and back unchanged, lint finds what the reference refuses, and explain
finds in the files what the line says.

usage: cases.py CASES..
"""
import struct
import sys

from common import Tally
from zhargutai import explain, lint, settext, showing


def gate_jobs(b):
    """(set, its refusal's number, source and place) of each one-gate job."""
    at = 8

    def part():
        nonlocal at
        size = struct.unpack_from("<I", b, at)[0]
        at += 4 + size
        return b[at - size:at]

    for _ in range(struct.unpack_from("<I", b, 4)[0]):
        part()
        s = part()
        part()
        kind, number, source, _, place = struct.unpack_from("<4BI", b, at)
        at += 64
        part()
        yield s, False, (number, place) if source == 1 else None, number == 17


def check_jobs(path):
    from program import jobs_of
    for _, start, circuit, end, _, line in jobs_of(path):
        word, *rest = line.split()
        number, source, place = map(int, rest) if word == "refused" else (0, 0, 0)
        yield start, False, (number, place) if source == 1 else None, number in (17, 18)
        yield end, True, (number, place) if source == 3 else None, 0 < number < 13 and source < 3


def explained(path, tally):
    """Every third line is explained, and the explanation fits to it."""
    from program import jobs_of
    for i, (name, start, circuit, end, allowance, line) in enumerate(jobs_of(path)):
        if i % 3 == 0:
            said = explain.as_text(explain.explained(line, b"JB", allowance, start, circuit, end))
            tally.holds(f"{name}, {line}: {said[:300]}", said and not any(odd in said for odd in ("own reading", "do not fit", "give no state", "no line of the program")))


def main(paths):
    tally, seen = Tally(), set()
    for path in paths:
        b = open(path, "rb").read()
        for s, end, refusal, hidden in gate_jobs(b) if b[:4] == b"ZGC1" else check_jobs(path):
            if (s, end) in seen:
                continue
            seen.add((s, end))
            shown = showing.show_set(s)
            tally.holds("a set that went to text and back", settext.pack_set(list(enumerate(shown.split("\n"), 1))) == s)
            if hidden:
                continue
            found = lint.faults(s, end)
            if refusal is None:
                tally.holds(f"no fault in a set that is taken: {found[:1]}", not found)
            else:
                mine = lint.answering(found, *refusal)
                least = min((f.number if f.number < 80 else 8 for f in found), default=0)
                tally.same("the refusal's number is lint's least", least, refusal[0] if refusal[0] < 80 else 8)
                tally.holds(f"lint has the record of {refusal}", mine and (refusal[1] == 0 or mine[0].record == refusal[1]))
        if b[:4] != b"ZGC1":
            explained(path, tally)
    tally.end(f"{len(seen)} sets of cases, to text and back and linted", 1000)


if __name__ == "__main__":
    main(sys.argv[1:])
