"""Sets, circuits and jobs go to text and back byte for byte: the files of crates/vectors and crates/mutations, the families of tests/reference,
5,000 random sets, damaged ones, the jobs of examples."""
import random

from common import ROOT, Tally, random_files, reference_sets
import families
from zhargutai import circuits, jobs, showing, text

tally, rng = Tally(), random.Random(21)


def back(b, kind):
    shown = text.show(b, kind)[1]
    packed = text.pack(shown.encode(), "shown", kind)
    tally.same(f"{kind} of {len(b)} bytes to text and back", packed, (kind, b))
    tally.same(f"{kind} to bytes and back", text.show(packed[1], kind)[1], shown)


files = [p for crate in ("vectors", "mutations") for p in sorted((ROOT / "crates" / crate / "data").iterdir())]
for path in files:
    b = path.read_bytes()
    back(b, "set")
    back(b, "circuit")
tally.holds("files of crates", len(files) > 50)
tally.same("basis 2 is B2", text.pack(b"basis 2\n", "B2")[1], reference_sets.file_of(reference_sets.B2))
tally.same("ket 0 is Z1", text.pack(b"ket 0\n", "Z1")[1], reference_sets.file_of(reference_sets.Z1))
kept = []
for i, b in enumerate(random_files(5000, 22)):
    back(b, "set")
    if i < 400:
        kept.append(b)
for b in kept:
    at = rng.randrange(len(b))
    for spoiled in (b[:at] + bytes([rng.randrange(256)]) + b[at + 1:], b[:at], b + b"\0"):
        back(spoiled, "set")
    gates = b"".join(circuits.record(rng.randint(0, 13), rng.randint(0, 20), rng.choice((0, 0, 1, 2)), rng.choice((0, 0, 0, 3))) for _ in range(rng.randint(0, 9)))
    back(gates, "circuit")
    back(gates[:-2], "circuit")
    for mark in showing.MARKS:
        job = showing.job_bytes(mark, rng.getrandbits(32), b, gates if mark != b"JQ" else b"OPENQASM 2.0;\nqreg q[2];\nh q[0];\n", kept[0])
        back(job, "job")
    back(job[:-1], "job")
for n in (8, 20):
    for name, start, circuit, end, allowance, _ in families.jobs(n):
        back(showing.job_bytes(b"JB", allowance, start, circuit, end), "job")
for path in jobs.in_folder(str(ROOT / "examples" / "jobs")):
    back(jobs.whole(path).bytes, "job")
tally.end("to text and back", 12000)
