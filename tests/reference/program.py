"""Runs the program on the jobs that check_cases.py wrote and on inputs that are no jobs, and compares what it prints and that it ends with status 0.

Most inputs come whole, some in pieces and some from a file. Those that are no jobs give `refused 18 0 0`, whatever else is wrong in them. The
crate's own stdin and stdout must be example 7 with B 4.

usage: program.py PROGRAM FILE CRATE
"""
import pathlib
import struct
import subprocess
import sys
import tempfile
import time

from sets import B2, E2, Z1, file_of, gt
from vectors import faulty, spoil

MOST = 65536
BELL = "example 7, B 4"
# document 01's examples of the program, and the line of each; document 02, request 2, gives that of 12 its place
EXAMPLES = {
    BELL: "holds 4", "example 7, B 3": "undecided 3", "example 7, B 0": "undecided 0", "example 8": "fails 1 0 0 0 0", "example 9": "fails 1 0 0 0",
    "example 11: k 63 and its own end set": "holds 1", "example 11: k 64": "refused 15 2 1", "example 12: masks 1 and 3": "refused 10 1 5",
    "example 13: 4096 gates": "holds 1", "example 13: 4097 gates": "refused 11 2 0",
    "example 14: end set of 128 states": "holds 1", "example 14: end set of 129 states": "refused 4 3 0",
}


def jobs_of(path):
    """(name, start, circuit, end, allowance, line)"""
    with open(path, "rb") as f:
        whole = f.read()
    assert whole[:4] == b"ZCC1"
    at = 8

    def part(length=None):
        nonlocal at
        if length is None:
            length, at = struct.unpack_from("<I", whole, at)[0], at + 4
        at += length
        return whole[at - length:at]

    for _ in range(struct.unpack_from("<I", whole, 4)[0]):
        name, start, circuit, end = (part() for _ in range(4))
        allowance = struct.unpack("<I", part(4))[0]
        part(64)
        yield name.decode(), start, circuit, end, allowance, part().decode()


def input_of(start, circuit, end, allowance, lengths=None):
    return b"JB" + struct.pack("<4I", allowance, *(lengths or map(len, (start, circuit, end)))) + start + circuit + end


def no_jobs():
    """Inputs that give 18."""
    z1, b2, e2 = file_of(Z1), file_of(B2), file_of(E2)
    bell = b2, gt(4, 1) + gt(9, 2, 1), e2
    good = input_of(*bell, 4)
    yield "nothing", b""
    for length in (1, 2, 3, 6, 10, 14, 17):
        yield f"{length} bytes", good[:length]
    yield "18 bytes with lengths", good[:18]
    yield "17 bytes with no lengths", (b"JB" + bytes(16))[:17]
    for mark in (b"JC", b"KB", b"BJ", b"jb", b"\0\0", b"HD"):
        yield f"mark {mark}", mark + good[2:]
    yield "a wrong mark with no parts", b"JX" + bytes(16)
    yield "a byte more", good + b"\0"
    yield "a byte less", good[:-1]
    yield "many bytes more", good + bytes(5000)
    yield "twice", good + good
    yield "a byte before it", b"\0" + good
    yield "no parts and a byte", b"JB" + bytes(16) + b"\0"
    for place in range(3):
        lengths = [len(part) for part in bell]
        for name, change in (("one more", 1), ("one less", -1), ("2^31 more", 1 << 31)):
            changed = [n + change if i == place else n for i, n in enumerate(lengths)]
            yield f"length {place} {name}", input_of(*bell, 4, changed)
        parts = [b"x" * (MOST + 1) if i == place else part for i, part in enumerate(bell)]
        yield f"part {place} of 65,537 bytes", input_of(*parts, 4)
        yield f"length {place} of 2^32-1, and no part", b"JB" + struct.pack("<I", 0) + b"".join(struct.pack("<I", (1 << 32) - 1 if i == place else 0) for i in range(3))
    wrapped = [(1 << 32) - 1, 1, 0], [(1 << 32) - 18, 0, 0], [1 << 31, 1 << 31, 0], [len(b2) + (1 << 31), len(bell[1]) + (1 << 31), len(e2)]
    for lengths in wrapped:
        yield f"lengths whose 32-bit sum fits, {lengths}", input_of(*(bell if lengths[2] else (b"", b"", b"")), 4, lengths)
    yield "18 before a bad start set", input_of(b"", b"x", b"", 0) + b"\0"
    yield "one part of 65,537 bytes after two of 65,536", input_of(bytes(MOST), bytes(MOST), bytes(MOST + 1), 0)
    yield "the longest job and one byte", input_of(bytes(MOST), bytes(MOST), bytes(MOST), 1) + b"\0"
    yield "a megabyte", b"JB" + bytes(1 << 20)
    yield "four megabytes of JB", b"JB" * (1 << 21)


def long_parts():
    """Parts of exactly 65,536 bytes are taken, and then refused for what they are."""
    z1 = file_of(Z1)
    yield "a start of 65,536 bytes", input_of(z1.ljust(MOST, b"\0"), b"", z1, 1), "refused 5 1 0"
    yield "a circuit of 65,536 bytes", input_of(z1, b"G" * MOST, z1, 1), "refused 11 2 0"
    yield "an end of 65,536 bytes", input_of(z1, b"", z1.ljust(MOST, b"\0"), 1), "refused 5 3 0"
    yield "three parts of 65,536 bytes", input_of(bytes(MOST), bytes(MOST), bytes(MOST), 1), "refused 1 1 0"
    yield "no parts", input_of(b"", b"", b"", 0), "refused 1 1 0"
    yield "no end", input_of(z1, b"", b"", 0), "refused 1 3 0"


def records_named():
    """Document 02, request 2: the record's number, HD being 0, of either set; B2 has LV 1 to 3, TR 4 to 8 and LF 9 and 10."""
    b2 = file_of(B2)
    for spoiled, number, place in ((spoil(b2, 20, b"lv"), 6, 3), (spoil(b2, 72, b"tr"), 6, 8), (spoil(b2, 84, b"lf"), 6, 9), (faulty(1, 81), 81, 5), (faulty(2, 82), 82, 6), (faulty(3, 83), 83, 7),
                                   (faulty(4, 84), 84, 8), (faulty(4, 81, b=faulty(0, 84)), 84, 4), (faulty(3, 81, 82, 83, 84), 81, 7), (spoil(b2, 112, bytes(4)), 9, 10), (spoil(b2, 64, b"\1"), 10, 7)):
        yield f"{number} at record {place} of the start", input_of(spoiled, b"", b2, 1), f"refused {number} 1 {place}"
        yield f"{number} at record {place} of the end", input_of(b2, b"", spoiled, 1), f"refused {number} 3 {place}"


# ---- ways to give the input
def whole(program, given):
    return subprocess.run([program], input=given, capture_output=True, timeout=60)


def from_file(program, given):
    with tempfile.TemporaryFile() as f:
        f.write(given)
        f.seek(0)
        return subprocess.run([program], stdin=f, capture_output=True, timeout=60)


def in_pieces(program, given):
    """Cut within the mark, the lengths and the parts, with pauses."""
    running = subprocess.Popen([program], stdin=subprocess.PIPE, stdout=subprocess.PIPE, stderr=subprocess.PIPE, bufsize=0)
    cuts = sorted({0, *(n for n in (1, 5, 17, 18, 19, len(given) - 1) if 0 < n < len(given)), len(given)})
    for begin, stop in zip(cuts, cuts[1:]):
        running.stdin.write(given[begin:stop])
        time.sleep(0.002)
    out, err = running.communicate(timeout=60)
    return subprocess.CompletedProcess(program, running.returncode, out, err)


def wrong(got, line):
    return (got.returncode, got.stdout, got.stderr) != (0, line.encode() + b"\n", b"")


def main(program, path, crate):
    asked = [(name, input_of(*job, allowance), line) for name, *job, allowance, line in jobs_of(path)]
    no_job = [(f"no job: {name}", given, "refused 18 0 0") for name, given in no_jobs()]
    runs = failed = 0
    for i, (name, given, line) in enumerate(asked + no_job + list(long_parts()) + list(records_named())):
        often = i % 10 == 0 or name in EXAMPLES or name.startswith("no job") and len(given) < 5000
        for way in (whole, from_file, in_pieces) if often else (whole,):
            got = way(program, given)
            runs += 1
            if wrong(got, line):
                failed += 1
                print(f"{name}, {way.__name__}: wanted {line!r}, got {got.stdout!r}, errors {got.stderr[:200]!r}, status {got.returncode}")
    known = {name: (given, line) for name, given, line in asked}
    for name, line in EXAMPLES.items():
        if name not in known or known[name][1] != line:
            failed += 1
            print(f"{name}: document 01 says {line!r}, and the reference does not")
    if [(pathlib.Path(crate) / name).read_bytes() for name in ("stdin", "stdout")] != [known[BELL][0], known[BELL][1].encode() + b"\n"]:
        failed += 1
        print(f"{crate}/stdin and stdout are not {BELL}")
    print(f"{len(asked)} jobs, {len(EXAMPLES)} of them document 01's, and {len(no_job)} inputs that are none: {runs} runs of the program, {failed} wrong")
    return 1 if failed or len(asked) < 1500 else 0


if __name__ == "__main__":
    sys.exit(main(*sys.argv[1:]))
