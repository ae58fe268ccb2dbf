"""Damaged text gives a message that names the file and the line, and never a traceback: 4,000 texts with a character or a line changed, and some by hand.

Nor does a line that is not the job's.
"""
import random
import re

from common import ROOT, Tally, random_files
from zhargutai import explain, jobs, report, showing, text
from zhargutai.faults import Fault

tally, rng = Tally(), random.Random(23)
WRITTEN = "{}|>+-=/^()#.,:@ \t0123456789wixkqlevalstoffr\n\0é\x80"
TEXTS = [(p.read_text(), "job") for p in sorted((ROOT / "examples" / "jobs").iterdir())] + [(showing.show_set(b), "set") for b in random_files(60, 24) if len(b) < 3000]


def tried(b, kind):
    """True where the text is taken or refused with a message."""
    try:
        packed = text.pack(b, "damaged.zt", kind, jobs.beside("damaged.zt"))[1]
        return isinstance(packed, bytes)
    except Fault as fault:
        return re.match(r"(damaged\.zt|[^:]+: cannot be read)", str(fault)) and len(str(fault)) > 20


for i in range(4000):
    whole, kind = rng.choice(TEXTS)
    at = rng.randrange(len(whole))
    if i % 4 == 0:
        lines = whole.split("\n")
        del lines[rng.randrange(len(lines))]
        whole = "\n".join(lines)
    elif i % 4 == 1:
        whole = whole[:at] + whole[at + 1:]
    elif i % 4 == 2:
        whole = whole[:at] + rng.choice(WRITTEN) + whole[at + 1:]
    else:
        whole = whole[:at] + rng.choice(WRITTEN) * rng.choice((1, 1, 1, 40)) + whole[at:]
    tally.holds(f"a damaged text: {whole[:200]!r}", tried(whole.encode("utf-8", "surrogateescape"), rng.choice((kind, kind, None, "circuit"))))

HAND = [
    ("basis 0", "set", ":1: 1 to 20 qubits were expected, found 0"),
    ("basis x", "set", ":1: basis takes a number of qubits, 1 to 20, found 'x'"),
    ("ket 012", "set", ":1: a pattern of 0, 1 and x was expected, found '012'"),
    ("|00> + |1>", "set", ":1: a ket of 2 qubits was expected, found |1>"),
    ("|00> |11>", "set", ":1: + or - was expected before '|11>'"),
    ("(|0> + |1>)/3", "set", ":1: /sqrt2, /sqrt2^3 or /2 was expected after the bracket, found '/3'"),
    ("|0>\n|1>", "set", ":2: more than one state needs a line `all of` before line 1"),
    ("", "set", ": a set was expected, and there is none"),
    ("qubits 1\nk 0\nlevel 1: a\nlevel 2: b\na {0} -> b c\n", "set", ":5: the state 'c' is on no level: a `level` line must name it"),
    ("qubits 1\nk 0\nlevel 1: a\nlevel 2: b\nb {0} = 1 +\n", "set", ":5: an amplitude such as 1, -1, i, w^3 or 2 - w was expected, and the line ends"),
    ("qubits 1\nk 0\nlevel 2: a\n", "set", ":3: level 1 was expected, found level 2"),
    ("qubits 1\nk 0\nlevel 1: a\nlevel 2: a\n", "set", ":4: the state a was named before"),
    ("qubits 1\nk 0\nlevel 1: a\nlevel 2: b\na {32} -> b b\n", "set", ":5: choices such as {0,2-4} were expected, each 0 to 31, found {32}"),
    ("H 1\nFOO 2", "circuit", ":2: a gate was expected, one of X, Y, Z, H, S, SDG, T, TDG, CX, CZ, SWAP, CCX, found 'FOO'"),
    ("H", "circuit", ":1: H takes one qubit, found 0 of them"),
    ("CX 1", "circuit", ":1: CX takes control and target, found 1 of them"),
    ("start\nbasis 1\ncircuit\nX 1\n", "job", ": a line `end` was expected, with its lines below or the name of a file"),
    ("start nowhere.zt\ncircuit\nend\nbasis 1\n", "job", "nowhere.zt: cannot be read: No such file or directory"),
    ("allow 5000000000\nstart\n", "job", ":1: the allowance was expected, a number of at most 4294967295, found '5000000000'"),
]
for given, kind, message in HAND:
    try:
        text.pack(given.encode(), "damaged.zt", kind, jobs.beside("damaged.zt"))
        tally.same(given, "taken", message)
    except Fault as fault:
        tally.same(given, re.sub(r"^damaged\.zt(:[0-9]+)?(?=: a (set|line) )", "", str(fault)).removeprefix("damaged.zt") if message[0] == ":" else str(fault), message)

# a line that is not the job's, parts that are no sets: the words may be few, and there are some
LINES = ["refused 8 1 0", "refused 81 1 3", "refused 84 3 9", "refused 9 1 70", "refused 10 3 5", "refused 6 1 2", "refused 13 0 0", "refused 14 2 1", "refused 16 2 9", "refused 12 2 99",
         "refused 18 0 0", "refused 20 2 1", "fails 1 0 0 0 0", "fails 1 70000 0 0", "fails 9 0 99 99 99", "holds 0", "undecided 3", "holds", "what", ""]
packed = [jobs.whole(path) for path in jobs.in_folder(str(ROOT / "examples" / "jobs"))]
for i in range(600):
    job, line = rng.choice(packed), rng.choice(LINES)
    parts = [job.start, job.circuit, job.end]
    if i % 2:
        spoiled = bytearray(parts[i % 3]) or bytearray(b"x")
        spoiled[rng.randrange(len(spoiled))] = rng.randrange(256)
        parts[i % 3] = bytes(spoiled)[:rng.choice((None, None, 13))]
    explained = explain.as_text(explain.explained(line, b"JB", 4, *parts)) if i % 3 else report.page("job", line, "", b"JB", 4, *parts)
    tally.holds(f"{job.name}, {line!r}", len(explained) > 20)
tally.end("damaged texts", 4000)
