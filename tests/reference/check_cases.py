"""Writes the jobs that a check is held to, random with a fixed seed and named, with the reply and the line that check.py gives.

Fails if a kind of job that is asked for below was not made.

usage: check_cases.py FILE

FILE: "ZCC1", then the number of jobs (4 bytes), then the jobs. A job: its name, the start set, the circuit, the end set, the allowance (4 bytes),
the reply (64 bytes), the line; each without a size here after its length (4 bytes). Numbers are little-endian.
"""
import struct
import sys

import check_named
import check_random
import check_refused
import errors
from check_jobs import jobs, kinds
from check_sets import WRITTEN
from sets import NAMING, SET_NUMBERS

WANTED = {
    "examples": 1, "held to trees and to a search": 1000, "image": 250, "spoiled": 200, "spoiled and fails": 100, "mixture": 80, "union": 40, "random": 100,
    "holds": 500, "holds with members": 400, "holds with no member": 5, "holds, several members": 200, "holds, allowance just enough": 100,
    "fails": 300, "fails at place 1": 100, "fails at a later place": 100, "fails at the last place allowed": 50, "fails at a later root": 50, "choice 31 in a failing word": 10,
    "fails with 21 choices": 2, "fails at a root over 255": 2, "count over 65,535": 3,
    "undecided": 200, "undecided 0": 50, "undecided, later": 100, "undecided before a failure": 30,
    "empty circuit": 50, "several gates": 500, "k apart": 50, "several roots at the start": 300, "several roots at the end": 300,
    "allowance 2^32-1": 100, "refused, allowance 0": 30,
    **{f"n {n}": 2 for n in range(1, 21)}, **{f"n {n}": 200 for n in range(1, 5)},
    **{f"image {way.__name__}": 8 for way in WRITTEN},
    **{f"number {i}, source {source}": 5 for i in SET_NUMBERS for source in (1, 3)},
    **{f"number {i}, source {source}, a later record": 5 for i in NAMING for source in (1, 3)}, "the record that was spoiled": 100,
    **{f"number {i}, source 2": 5 for i in (11, 12, 14, 15, 16)}, "number 13, source 0": 5,
    **{f"number {i}, source 2, a later gate": 3 for i in (12, 14, 15, 16)},
    **{f"{d} {where} the bound": 2 for d in ("states", "inner", "leaves") for where in ("at", "over")},
    **{f"catches {error}": 20 for error in errors.ERRORS},
    **{f"k {d} apart, {kind}": 2 for d in check_random.K_APART for kind in ("equal", "unequal by one", "at the ends")},
}


def main(path):
    check_named.examples()
    check_named.errors_apart()
    check_named.great_numbers()
    check_random.images(260)
    check_random.each_way(10)
    check_random.spoiled(250)
    check_random.mixtures(150)
    check_random.unions(60)
    check_random.going_back(60)
    check_random.two_end_states(120)
    check_random.at_random(200)
    check_random.deep(32)
    check_refused.files_refused()
    check_refused.order()
    check_refused.bounds(3)
    check_refused.damaged(200)
    check_random.k_apart(3)
    check_refused.records_named(6)
    lacking = [f"{k}: {kinds[k]} of {least}" for k, least in WANTED.items() if kinds[k] < least]
    for line in lacking:
        print("too few of", line)
    if lacking or len(jobs) < 1500:
        return 1
    with open(path, "wb") as f:
        f.write(b"ZCC1" + struct.pack("<I", len(jobs)))
        for name, start, circuit, end, allowance, reply, line in jobs:
            for part in (name.encode(), start, circuit, end):
                f.write(struct.pack("<I", len(part)) + part)
            f.write(struct.pack("<I", allowance) + reply + struct.pack("<I", len(line)) + line.encode())
    refused = ", ".join(f"{kinds[f'number {i}']} of {i}" for i in (*SET_NUMBERS, *range(11, 17)))
    print(f"{len(jobs)} jobs: {kinds['holds']} hold, {kinds['fails at place 1']} fail at place 1, {kinds['fails at a later place']} later, {kinds['undecided']} undecided")
    print(f"refusals: {refused}")
    print("errors that would be caught:", ", ".join(f"{error} by {kinds[f'catches {error}']}" for error in errors.ERRORS))
    return 0


if __name__ == "__main__":
    sys.exit(main(sys.argv[1]))
