"""Writes the jobs that tests/c/gates.c runs: one-gate jobs, random with a fixed seed and named, with the reply and output that sets.py and gates.py give.

A result is also held to the gate's matrix: every member of a small set as a dense vector, a few random members of a larger one at some basis states.
Fails if a kind of job that is asked for below was not made.

usage: gate_cases.py FILE

FILE: "ZGC1", then the number of jobs (4 bytes), then the jobs. A job: its name, the set, the circuit, the reply (64 bytes), the output's new bytes;
each but the reply after its length (4 bytes). Numbers are little-endian.
"""
import random
import struct
import sys
from collections import Counter

import gates
from gate_sets import END, ENDS, SMALL, Draft, random_set
from gates import build, meet, members, transitions
from held import dense, sampled
from sets import B2, BOUNDS, NAMING, SET_NUMBERS, Set, Z1, file_of, gt, read_circuit, read_set
from vectors import cases as files, spoil

DIMENSIONS = ("states", "inner", "leaves")
MATRICES = ("held to dense vectors", "held to the matrix at some basis states", "without a member before and after", "not held to the matrix")
rng, sampler = random.Random(20), random.Random(21)
jobs, kinds = [], Counter()


# ---- the job by the second construction
def answer(b, circuit):
    """Kind, number, source, place, and the new set or None."""
    s = read_set(b)
    if isinstance(s, tuple):
        return 0, s[0], 1, s[1], None
    read = read_circuit(circuit, s.n, one=True)
    if isinstance(read, tuple):
        return 0, read[0], 2, read[1], None
    new = build(s, read[0])
    if isinstance(new, int):
        return 0, new, 2, 1, None
    return 1, 0, 0, 0, new


def job(name, b, circuit):
    kind, number, source, place, new = answer(b, circuit)
    out = b"" if new is None else file_of(new)
    reply = struct.pack("<4B3I", kind, number, source, 0, place, len(out), 0) + bytes(48)
    jobs.append((name, b, circuit, reply, out))
    kinds[f"number {number}"] += 1
    kinds[f"number {number}, a later record"] += source == 1 and place > 1
    if new is not None:
        assert read_set(out) == new, name
        note(read_set(b), read_circuit(circuit, new.n, one=True)[0], new)
    return number, new


def on_set(name, s, gate):
    assert read_set(file_of(s)) == s, name
    return job(name, file_of(s), gt(*gate))


# ---- what a made result shows
def reached(s):
    seen, below = set(range(s.counts[0])), {}
    for q, _, l, r in s.inner:
        below.setdefault(q, set()).update((l, r))
    for q in range(sum(s.counts)):
        if q in seen:
            seen |= below.get(q, set())
    return seen


def crosses(us, vs):
    """The meeting masks come in another order than that of two nested loops."""
    met = [m for m, _ in meet(us, vs, lambda x, y: None)]
    return met != [m & n for m, _ in us for n, _ in vs if m & n]


def note(s, gate, new):
    code, target, control = gate
    inner, leaves = transitions(s)
    first = [sum(s.counts[:i]) for i in range(s.n + 2)]
    at_target = [(l, r) for q, _, l, r in s.inner if first[target - 1] <= q < first[target]]
    pairs = code == 4 or (code == 9 and control > target)
    shown = {
        f"code {code}": True,
        f"n {s.n}": True,
        f"code {code} on the last qubit": target == s.n,
        f"code {code} on the first qubit": target == 1,
        "CX, control above": code == 9 and control < target,
        "CX, control below": code == 9 and control > target,
        "CX, control far above": code == 9 and control + 1 < target,
        "CX, control far below": code == 9 and control > target + 1,
        "CZ, control smaller": code == 10 and control < target,
        "CZ, control greater": code == 10 and control > target,
        "several roots": s.counts[0] > 1,
        "unreached states": len(reached(s)) < sum(s.counts),
        "kept states without transitions": len({t[0] for t in new.inner + new.leaves}) < sum(new.counts),
        "no transitions at all": not s.inner and not s.leaves,
        "crossing masks": pairs and any(crosses(t.get(l, ()), t.get(r, ())) for t in (inner, leaves) for l, r in at_target),
        "a pair that meets nothing": pairs and any(x and y and not meet(x, y, lambda a, b: 0) for t in (inner, leaves) for l, r in at_target for x, y in [(t.get(l), t.get(r))]),
        "a pair of one state with itself": pairs and any(l == r for l, r in at_target),
        "Y on equal children": code == 2 and any(l == r for l, r in at_target),
        "choice 31": any(m >> 31 for _, m, *_ in s.inner) or any(m >> 31 for _, m, _ in s.leaves),
        "k 64 kept": s.k == 64,
        "H at k 63": code == 4 and s.k == 63,
        "coefficients at an end before": any(abs(v) == END for _, _, x in s.leaves for v in x),
        "H with a coefficient at an end after": code == 4 and any(abs(v) == END for _, _, x in new.leaves for v in x),
        "output of the whole length": len(file_of(new)) == 49248,
    }
    for d, size, bound in zip(DIMENSIONS, (sum(new.counts), len(new.inner), len(new.leaves)), BOUNDS):
        shown[f"{d} at the bound"] = size == bound
    kinds.update(k for k, yes in shown.items() if yes)
    found = dense(s, gate, new)
    if found is not None:
        kinds["held to dense vectors" if found else "without a member before and after"] += 1
    else:
        kinds["held to the matrix at some basis states" if sampled(sampler, s, gate, new) else "not held to the matrix"] += 1


# ---- jobs
def random_gate(n, code=None, target=None):
    code = code or rng.randint(1, 10 if n > 1 else 8)
    target = target or rng.randint(1, n)
    return code, target, rng.choice([q for q in range(1, n + 1) if q != target]) if code >= 9 else 0


def examples():
    """Document 01's, with what it says of them."""
    number, h = on_set("example 2: H on Z1", Z1, (4, 1, 0))
    assert number == 0 and h.k == 1 and [x for _, _, x in h.leaves] == [(1, 0, 0, 0)] * 2
    number, hh = on_set("example 3: H twice, the second", h, (4, 1, 0))
    assert number == 0 and hh.k == 2 and [x for _, _, x in hh.leaves] == [(2, 0, 0, 0), (0, 0, 0, 0)]
    number, ht = on_set("example 4: H then T", h, (7, 1, 0))
    assert number == 0 and ht.leaves[1][2] == (0, 1, 0, 0)
    number, hb = on_set("example 6: H on qubit 1 of B2", B2, (4, 1, 0))
    assert number == 0 and (sum(hb.counts), len(hb.inner), len(hb.leaves)) == (11, 10, 6)
    number, bell = on_set("example 7: then CX", hb, (9, 2, 1))
    assert number == 0 and members(bell, 1) == [(0, (0, 0, 0), [(1, 1, 0, 0, 0), (1, 0, 0, 0, 0), (1, 0, 0, 0, 0), (1, 1, 0, 0, 0)])]
    top = (END, 0, 0, 0)
    once = Set(1, 0, (1, 2), Z1.inner, ((1, 1, top), (2, 1, (0, 0, 0, 0))))
    twice = Set(1, 0, (1, 2), Z1.inner, ((1, 1, top), (2, 1, top)))
    assert on_set("example 10: 2^30 and zero", once, (4, 1, 0))[0] == 0
    assert on_set("example 10: 2^30 twice", twice, (4, 1, 0))[0] == 16
    for k, wanted in ((63, 0), (64, 15)):
        assert on_set(f"example 11: k {k}", Set(1, k, Z1.counts, Z1.inner, Z1.leaves), (4, 1, 0))[0] == wanted


def basis(n, index):
    """The set whose one member is this basis state, qubit 1 the most significant: on each level a live state, and a dead one from level 2 on."""
    inner = []
    for level in range(n):
        live, dead = max(2 * level - 1, 0), 2 * level
        down = (2 * level + 1, 2 * level + 2)
        inner.append((live, 1, *(down if not index >> (n - 1 - level) & 1 else down[::-1])))
        if level > 0:
            inner.append((dead, 1, down[1], down[1]))
    return Set(n, 0, (1,) + (2,) * n, tuple(inner), ((2 * n - 1, 1, (1, 0, 0, 0)), (2 * n, 1, (0, 0, 0, 0))))


def textbook():
    """The columns of each gate's matrix, written down here once more: gates.py uses one table of phases for building and for its matrices."""
    o, one, minus, i, minus_i, w, w7 = (0, 0, 0, 0), (1, 0, 0, 0), (-1, 0, 0, 0), (0, 0, 1, 0), (0, 0, -1, 0), (0, 1, 0, 0), (0, 0, 0, -1)
    columns = {
        (1, 1, 0): ((o, one), (one, o)), (2, 1, 0): ((o, i), (minus_i, o)), (3, 1, 0): ((one, o), (o, minus)), (4, 1, 0): ((one, one), (one, minus)),
        (5, 1, 0): ((one, o), (o, i)), (6, 1, 0): ((one, o), (o, minus_i)), (7, 1, 0): ((one, o), (o, w)), (8, 1, 0): ((one, o), (o, w7)),
        (9, 2, 1): ((one, o, o, o), (o, one, o, o), (o, o, o, one), (o, o, one, o)), (9, 1, 2): ((one, o, o, o), (o, o, o, one), (o, o, one, o), (o, one, o, o)),
        (10, 2, 1): ((one, o, o, o), (o, one, o, o), (o, o, one, o), (o, o, o, minus)), (10, 1, 2): ((one, o, o, o), (o, one, o, o), (o, o, one, o), (o, o, o, minus)),
    }
    for gate, images in columns.items():
        n = len(images) // 2
        for index, image in enumerate(images):
            number, new = on_set(f"textbook, code {gate[0]}, target {gate[1]}, on basis state {index}", basis(n, index), gate)
            k = 1 if gate[0] == 4 else 0
            assert number == 0 and [v for _, _, v in members(new)] == [[(k,) + x for x in image]]


def small(count):
    for i in range(count):
        n = rng.randint(1, 4)
        s = random_set(rng, n, (1, 4), (2, 3), 3, missing=rng.choice((0, 0.03, 0.2)), used=rng.choice((0.5, 0.9, 0.97)),
                       values=ENDS if i % 8 == 0 else SMALL, k=rng.choice((0, 1, 7, 62, 63, 64)))
        on_set(f"small {i}", s, random_gate(n))


def deep():
    """Each n with each code, on the first, the last and some other qubit."""
    for n in range(1, 21):
        for code in range(1, 11 if n > 1 else 9):
            for target in (1, n, rng.randint(1, n)):
                s = random_set(rng, n, (1, 3), (2, 3), 2, missing=0.01, k=rng.randint(0, 63))
                on_set(f"deep, n {n}, code {code}, target {target}", s, random_gate(n, code, target))


def crossing(count):
    for i in range(count):
        n = rng.randint(1, 4)
        s = random_set(rng, n, (1, 3), (5, 9), 5, used=0.9 if i % 4 else 0.25)
        t = rng.randint(1, n)
        on_set(f"crossing {i}", s, (4, t, 0) if t == n or i % 3 else (9, t, rng.randint(t + 1, n)))
    q, p = ((1, 0b1001), (1, 0b10)), ((2, 0b11), (2, 0b1000))
    s = Set(1, 0, (1, 2), ((0, 1, 1, 2),), tuple((st, m, (i + 1, 0, 0, 0)) for i, (st, m) in enumerate(q + p)))
    _, new = on_set("crossing as in {0,3},{1} and {0,1},{3}", s, (4, 1, 0))
    assert [m for _, m, _ in new.leaves] == [1, 2, 8] * 2 and [x[0] for _, _, x in new.leaves[:3]] == [4, 5, 5]


def wide(count):
    for i in range(count):
        n = rng.randint(1, 6)
        most = 1000 // (n + 1)
        s = random_set(rng, n, (most // 3, most), (2, 2), 2, k=rng.randint(0, 63))
        on_set(f"wide {i}", Set(s.n, s.k, s.counts, s.inner[:2048], s.leaves[:1024]), random_gate(n))


def ranges(count):
    """Coefficients at the ends of their range."""
    for i in range(count):
        n = rng.randint(1, 3)
        values = rng.choice((ENDS, (END, -END, 0, 0, 0, 0, 0), (END >> 1, -(END >> 1)), (END >> 1, (END >> 1) + 1, 0, 0, 0, 0, 0, 0)))
        s = random_set(rng, n, (1, 2), (2, 2), 1, values=values, missing=0.02)
        on_set(f"ranges {i}", s, random_gate(n, rng.choice((4, 4, 4, 4, 2, 3, 6, 7, 8))))
    zero = (0, 0, 0, 0)
    for place in range(4):
        for a, b, wanted, why in ((END, 1, 16, "A+B over"), (-END, -1, 16, "A+B under"), (END, -1, 16, "A-B over"), (-END, 1, 16, "A-B under"),
                                  (END, END, 16, "both ends"), (END, -END, 16, "opposite ends"), (END, 0, 0, "A at the end"), (0, -END, 0, "B at the end"),
                                  (END - 1, 1, 0, "A+B at the end"), (1 - END, -1, 0, "A+B at the lower end"), (END - 1, -1, 0, "A-B at the end"), (1 - END, 1, 0, "A-B at the lower end"),
                                  (END - 1, 2, 16, "A+B one over"), (1 - END, 2, 16, "A-B one under")):
            put = lambda v: zero[:place] + (v,) + zero[place + 1:]
            s = Set(1, 5, (1, 2), Z1.inner, ((1, 1, put(a)), (2, 1, put(b))))
            assert on_set(f"H, coefficient {place}, {why}", s, (4, 1, 0))[0] == wanted
            kinds[f"H, {why}"] += 1
    top = (END,) * 4
    unreached = Set(1, 0, (1, 4), ((0, 1, 1, 2),), ((1, 1, zero), (2, 1, zero), (3, 1, top), (4, 1, top)))
    apart = Set(1, 0, (1, 2), ((0, 1, 1, 2),), ((1, 1, top), (2, 2, top)))
    unused = Set(1, 0, (1, 2), ((0, 1, 1, 2),), ((1, 1, zero), (1, 2, top), (2, 3, top)))
    memberless = Set(2, 0, (1, 2, 2), ((0, 1, 1, 2), (1, 1, 3, 4)), ((3, 1, top), (4, 1, top)))
    for name, s, gate, wanted in (("16: not for unreached leaves", unreached, (4, 1, 0), 0), ("16: not for leaves that do not meet", apart, (4, 1, 0), 0),
                                  ("16: for a leaf beside a good one", unused, (4, 1, 0), 16), ("16: for a leaf that no member uses", memberless, (4, 2, 0), 16)):
        assert on_set(name, s, gate)[0] == wanted
        kinds[name] += 1


def sizes(s):
    return sum(s.counts), len(s.inner), len(s.leaves)


def unbounded(s, gate):
    """The result, whatever its size."""
    kept, gates.BOUNDS = gates.BOUNDS, (1 << 20,) * 3
    try:
        return build(s, gate)
    finally:
        gates.BOUNDS = kept


def base_that_grows(code, d, least_growth, n=None):
    """A set, a gate of this code, and the sizes of the result, which has so many of d more than the set."""
    while True:
        s = random_set(rng, n or rng.randint(2, 4), (1, 2) if n else (2, 4), (2, 3), 2, missing=0, k=rng.randint(0, 63))
        gate = random_gate(s.n, code)
        new = build(s, gate)
        if not isinstance(new, int) and any(t[0] < s.counts[0] for t in s.inner) and sizes(new)[d] - sizes(s)[d] >= least_growth:
            return s, gate, sizes(new)


def grown(s, gate, d, count):
    draft = Draft(s)
    if d == 0:
        draft.more_states(rng, count)
    elif d == 1:
        draft.more_inner(rng, count)
    else:
        draft.more_leaves(rng, count, gate[0])
    return draft.set()


def bounds(rounds):
    """Results of exactly the greatest size, and of one more, for each code that can give one more."""
    for i in range(rounds):
        for code in range(1, 11):
            for d, name in enumerate(DIMENSIONS):
                s, gate, has = base_that_grows(code, d, 0)
                number, new = on_set(f"{name} at the bound, code {code}, {i}", grown(s, gate, d, BOUNDS[d] - has[d]), gate)
                assert number == 0 and sizes(new)[d] == BOUNDS[d]
                kinds[f"{name} at the bound, code {code}"] += 1
                if code == 1 or (code == 9 and d == 2):
                    continue
                step = 2 if code == 4 and d == 2 else 1
                s, gate, has = base_that_grows(code, d, step)
                s = grown(s, gate, d, BOUNDS[d] + step - has[d])
                assert [size - bound for size, bound in zip(sizes(unbounded(s, gate)), BOUNDS) if size > bound] == [step]
                assert on_set(f"{name} over the bound, code {code}, {i}", s, gate)[0] == 14
                kinds[f"{name} {step} over the bound, code {code}"] += 1
    for n in (2, 5, 12, 20, 20, 20):
        s, gate, _ = base_that_grows(rng.choice((3, 5, 7)), 0, 1, n)
        for d in (2, 1, 0):
            s = grown(s, gate, d, BOUNDS[d] - sizes(build(s, gate))[d])
        assert on_set(f"all three at the bounds, n {n}", s, gate)[0] == 0


def order_of_refusals():
    """15, then 14, then 16, and each before its later ones; a set's refusal before the circuit's; H at k = 64 whatever the set holds."""
    top = (END,) * 4
    for k, wanted in ((63, 14), (64, 15)):
        over = Set(1, k, (40, 40), tuple((q, 1 << c, 40 + q, 40 + c) for q in range(40) for c in range(32)), tuple((40 + c, 3, top) for c in range(40)))
        assert on_set(f"{wanted} before 16, k {k}", over, (4, 1, 0))[0] == wanted
        kinds[f"{wanted} before 16"] += 1
    assert on_set("15 with 16", Set(1, 64, (1, 2), Z1.inner, ((1, 1, top), (2, 1, top))), (4, 1, 0))[0] == 15
    assert on_set("15 with no transitions", Set(20, 64, (1,) + (0,) * 20, (), ()), (4, 20, 0))[0] == 15
    for n in (1, 2, 20):
        for gate in ((4, 1, 0), (2, n, 0), (9, 1, n), (10, n, 1)):
            if gate[0] < 9 or n > 1:
                on_set(f"no transitions, n {n}, code {gate[0]}", Set(n, 63, (3,) + (1,) * n, (), ()), gate)
    for number, b in ((1, b""), (2, files["set-2-version-0"]), (84, files["set-84-at-6"]), (10, files["set-10-masks-1-and-3"])):
        for circuit in (b"", b"GT", gt(0, 0), gt(4, 99), bytes(12)):
            assert job(f"{number} before the circuit's {len(circuit)} bytes", b, circuit)[0] == number
            kinds["a set's refusal before the circuit's"] += 1


def damaged(count):
    """Every file of vectors.py, then random damage to sets and gates."""
    for name, b in files.items():
        kind, rest = name.split("-", 1)
        if kind == "set":
            job(f"file {name}", b, gt(1, 1))
            job(f"file {name}, H", b, gt(4, 1))
        elif kind in ("one", "gates"):
            job(f"file {name}", file_of(B2 if rest[0] == "2" else Z1), b)
    good = [file_of(random_set(rng, rng.randint(1, 5), (1, 4), (2, 4), 3)) for _ in range(40)]
    for i in range(count):
        b = rng.choice(good)
        circuit = gt(*random_gate(b[3]))
        for _ in range(rng.choice((1, 1, 1, 2, 3))):
            where, way = rng.randrange(len(b)), rng.randrange(5)
            if way == 0:
                b = spoil(b, where, bytes([b[where] ^ 1 << rng.randrange(8)]))
            elif way == 1:
                b = spoil(b, where, bytes([rng.choice((0, 1, 2, 64, 127, 128, 255))]))
            elif way == 2:
                where = 12 + 4 * rng.randrange((len(b) - 12) // 4)
                b = spoil(b, where, rng.choice((b"HD", b"LV", b"TR", b"LF", b"GT")))
            elif way == 3:
                b = rng.choice((b[:where], b + bytes(rng.randint(1, 24)), b[:rng.randrange(14)])) or b"H"
            else:
                where, other = (12 + 4 * rng.randrange((len(b) - 12) // 4) for _ in range(2))
                piece = rng.choice((4, 12, 24))
                b = spoil(b, where, b[other:other + piece])[:len(b)]
            if len(b) < 17:
                break
        job(f"damaged set {i}", b, circuit)
    for i in range(count // 2):
        n = rng.randint(1, 5)
        b = file_of(random_set(rng, n, (1, 3), (2, 2), 2))
        circuit = bytearray(gt(*random_gate(n)))
        if i % 5 == 0:
            circuit = bytearray(rng.randbytes(rng.choice((0, 1, 5, 7, 12, 18, 100)))) if i % 2 else circuit * rng.choice((0, 2, 3))
        else:
            circuit[i % 6] = rng.choice((0, 1, n, n + 1, 9, 10, 11, 255, 71, 84, 72))
        job(f"damaged gate {i}", b, bytes(circuit))
    one = file_of(Z1)
    for place, name in enumerate(("first letter", "second letter", "code", "target", "control", "zero byte")):
        assert job(f"12: {name}", one, spoil(gt(1, 1), place, b"\x63"))[0] == 12
        kinds[f"12: {name}"] += 1


WANTED = {
    "held to dense vectors": 2000, "held to the matrix at some basis states": 300,
    "several roots": 100, "unreached states": 100, "kept states without transitions": 100, "no transitions at all": 4, "crossing masks": 50,
    "a pair that meets nothing": 20, "a pair of one state with itself": 20, "Y on equal children": 10, "choice 31": 50,
    "k 64 kept": 50, "H at k 63": 5, "coefficients at an end before": 50, "H with a coefficient at an end after": 20, "output of the whole length": 3,
    "CX, control above": 50, "CX, control below": 50, "CX, control far above": 20, "CX, control far below": 20, "CZ, control smaller": 50, "CZ, control greater": 50,
    "14 before 16": 1, "15 before 16": 1, "a set's refusal before the circuit's": 15, "number 0": 1500, "number 16": 30,
    **{f"number {i}": 5 for i in (*SET_NUMBERS, 11, 12, 14, 15)}, **{f"number {i}, a later record": 5 for i in NAMING},
    **{f"code {c}{where}": 20 for c in range(1, 11) for where in ("", " on the first qubit", " on the last qubit")},
    **{f"n {n}": 10 for n in range(1, 21)},
    **{f"{d} at the bound, code {c}": 2 for d in DIMENSIONS for c in range(1, 11)},
    **{f"{d} 1 over the bound, code {c}": 2 for d in DIMENSIONS for c in (2, 3, 5, 6, 7, 8, 10)},
    **{f"{d} 1 over the bound, code {c}": 2 for d in ("states", "inner") for c in (4, 9)}, "leaves 2 over the bound, code 4": 2,
}


def main(path):
    examples()
    textbook()
    small(2700)
    deep()
    crossing(250)
    wide(40)
    ranges(200)
    bounds(2)
    order_of_refusals()
    damaged(600)
    lacking = [f"{k}: {kinds[k]} of {least_wanted}" for k, least_wanted in WANTED.items() if kinds[k] < least_wanted]
    for line in lacking:
        print("too few of", line)
    if lacking:
        return 1
    with open(path, "wb") as f:
        f.write(b"ZGC1" + struct.pack("<I", len(jobs)))
        for name, b, circuit, reply, out in jobs:
            for part in (name.encode(), b, circuit):
                f.write(struct.pack("<I", len(part)) + part)
            f.write(reply + struct.pack("<I", len(out)) + out)
    refused = ", ".join(f"{kinds[f'number {i}']} of {i}" for i in (*SET_NUMBERS, *range(11, 17)) if kinds[f"number {i}"])
    print(f"{len(jobs)} jobs: {kinds['number 0']} results, refusals: {refused}")
    print("results:", ", ".join(f"{kinds[k]} {k}" for k in MATRICES))
    return 0


if __name__ == "__main__":
    sys.exit(main(sys.argv[1]))
