"""Jobs of the check that are refused, or just not: every number from each source, their order, and results at their bounds."""
import check
import gates
from check import HOLDS, REFUSED
from check_jobs import MOST, circuit_of, job, kinds, on_sets, rng
from check_random import start_and_image
from gate_sets import END, Draft
from gates import build
from sets import B2, BOUNDS, E2, NAMING, SET_NUMBERS, Set, Z1, file_of, gt, read_set
from vectors import cases as files, faulty, spoil, u16, u32


def files_refused():
    """Every file of vectors.py as start, as circuit and as end, also with an allowance of 0."""
    z1, b2, e2 = file_of(Z1), file_of(B2), file_of(E2)
    for name, b in files.items():
        kind, rest = name.split("-", 1)
        if kind in ("set", "end"):
            job(f"start {name}", b, b"", z1, 1)
            job(f"end {name}", b2 if b[3:4] == b"\2" else z1, b"", b, rng.choice((0, 1, MOST)))
        elif kind == "gates":
            job(f"circuit {name}", b2 if rest[0] == "2" else z1, b, e2 if rest[0] == "2" else z1, rng.choice((0, 4)))
    for place in (1, 2, 7, 4096):
        assert job(f"12 at gate {place}", z1, gt(1, 1) * (place - 1) + gt(1, 2) + gt(0, 0) * (0 if place == 4096 else 3), z1, 0) == check.Answer(REFUSED, 12, 2, place)
    for place, name in enumerate(("first letter", "second letter", "code", "target", "control", "zero byte")):
        assert job(f"12: {name}", z1, gt(3, 1) + spoil(gt(1, 1), place, b"\x63"), z1, 1) == check.Answer(REFUSED, 12, 2, 2)


def order():
    """Start set, circuit, end set, 13, then gate by gate 15, 14, 16; each with a fault in all that follows."""
    z1, b2, e2 = file_of(Z1), file_of(B2), file_of(E2)
    top = (END,) * 4
    wide = [Set(1, k, (40, 40), tuple((q, 1 << c, 40 + q, 40 + c) for q in range(40) for c in range(32)), tuple((40 + c, 3, top) for c in range(40))) for k in (63, 64)]
    hot = Set(1, 62, (1, 2), Z1.inner, ((1, 1, top), (2, 1, top)))
    bad = {i: next(b for name, b in files.items() if name.startswith(f"set-{i}-")) for i in SET_NUMBERS}
    # the names of these files say the places; the others are Z1's only TR, or 0
    place_of = {6: 2, 81: 3, 82: 3, 83: 3, 84: 3, 9: 4, 10: 5}
    h, x, odd, wrong = gt(4, 1), gt(1, 1), b"GT", gt(0, 1)
    for i in SET_NUMBERS:
        at = place_of.get(i, 0)
        for circuit in (b"", odd, wrong, h):
            for end in (z1, bad[rng.choice(SET_NUMBERS)], e2):
                assert job(f"start {i} first", bad[i], circuit, end, rng.choice((0, 1))) == check.Answer(REFUSED, i, 1, at)
        for circuit, number, place in ((odd, 11, 0), (x + wrong, 12, 2), (x * 4097, 11, 0)):
            assert job(f"{number} before end {i}", z1, circuit, bad[i], 1) == check.Answer(REFUSED, number, 2, place)
        for start, circuit in ((z1, b""), (b2, gt(9, 1, 2)), (file_of(wide[1]), h), (file_of(hot), h)):
            assert job(f"end {i} before 13 and gates", start, circuit, bad[i], rng.choice((0, 1))) == check.Answer(REFUSED, i, 3, at)
    for allowance in (0, 1, MOST):
        assert job("12 before 13: a qubit that only the end set has", z1, gt(4, 2), e2, allowance) == check.Answer(REFUSED, 12, 2, 1)
        assert job("11 before 13", z1, odd, e2, allowance) == check.Answer(REFUSED, 11, 2)
        for start, circuit in ((z1, b""), (z1, x), (file_of(wide[1]), h), (file_of(wide[0]), h), (file_of(hot), h)):
            assert job("13 before the gates", start, circuit, e2, allowance) == check.Answer(REFUSED, 13)
        assert job("13, fewer qubits at the end", b2, b"", z1, allowance) == check.Answer(REFUSED, 13)
        for s, number in ((wide[1], 15), (wide[0], 14), (hot, 16), (Set(1, 64, hot.counts, hot.inner, hot.leaves), 15), (Set(1, 64, (1, 0), (), ()), 15)):
            for before in (0, 1, 3):
                assert job(f"{number} after {before} gates", file_of(s), x * before + h + h, z1, allowance) == check.Answer(REFUSED, number, 2, before + 1)
    memberless = Set(2, 0, (1, 2, 2), ((0, 1, 1, 2), (1, 1, 3, 4)), ((3, 1, top), (4, 1, top)))
    assert job("16 with no member", file_of(memberless), gt(4, 2), e2, 0) == check.Answer(REFUSED, 16, 2, 1)
    # the earliest gate wins, whatever the number: a 16 at gate 2 before a 15 at gate 3, a 15 at gate 3 before what follows
    warm = Set(1, 62, (1, 2), Z1.inner, ((1, 1, top), (2, 1, (0, 0, 0, 0))))
    cool = Set(1, 62, Z1.counts, Z1.inner, Z1.leaves)
    assert job("16 before a later 15", file_of(warm), h * 3, z1, 1) == check.Answer(REFUSED, 16, 2, 2)
    assert job("15 at gate 3", file_of(cool), h * 3, z1, 1) == check.Answer(REFUSED, 15, 2, 3)
    assert job("64 times H", file_of(Z1), h * 64, z1, 1) == check.Answer(REFUSED, 16, 2, 62)
    assert job("60 times H", file_of(Z1), h * 60, z1, 1) == check.Answer(HOLDS, count=1)


def sizes(s):
    return sum(s.counts), len(s.inner), len(s.leaves)


def unbounded(s, circuit):
    """The sizes of each gate's result, whatever they are; None where a gate is refused for another reason."""
    kept, gates.BOUNDS = gates.BOUNDS, (1 << 20,) * 3
    try:
        made = []
        for gate in circuit:
            s = build(s, gate)
            if isinstance(s, int):
                return None
            made.append(sizes(s))
        return made
    finally:
        gates.BOUNDS = kept


def bounds(count):
    """Results of exactly the greatest size at some gate, and of one more."""
    for i in range(count):
        for d, name in enumerate(("states", "inner", "leaves")):
            for over in (0, 1):
                while True:
                    s, circuit, _ = start_and_image(4, 20)
                    had = unbounded(s, circuit)
                    if not had or not any(t[0] < s.counts[0] for t in s.inner):
                        continue
                    most = max(h[d] for h in had)
                    draft, more = Draft(s), BOUNDS[d] + over - most
                    twice = any(gate[0] == 4 for gate in circuit)
                    if d == 0:
                        draft.more_states(rng, more)
                    elif d == 1:
                        draft.more_inner(rng, more)
                    elif twice:
                        continue
                    else:
                        draft.more_leaves(rng, more, 1)
                    big = draft.set()
                    now = unbounded(big, circuit)
                    if isinstance(read_set(file_of(big)), tuple) or now is None or max(n[d] for n in now) != BOUNDS[d] + over:
                        continue
                    if any(n[other] > BOUNDS[other] for n in now for other in range(3) if other != d):
                        continue
                    break
                e = start_and_image(0, 20, s.n)[2]
                got = on_sets(f"{name} {'over' if over else 'at'} the bound {i}", big, circuit, e, rng.choice((0, 1, 20)))
                place = next((p for p, n in enumerate(now, 1) if n[d] > BOUNDS[d]), 0)
                assert got == check.Answer(REFUSED, 14, 2, place) if over else got.kind != REFUSED
                kinds[f"{name} {'over' if over else 'at'} the bound"] += 1


def damaged(count):
    """Random damage to one of the three files."""
    for i in range(count):
        s, circuit, image = start_and_image(4, 20)
        parts = [file_of(s), circuit_of(circuit), file_of(image)]
        which = rng.choice((0, 1, 2, 2))
        for _ in range(rng.choice((1, 1, 2))):
            b = parts[which] or b"\0"
            where = rng.randrange(len(b))
            way = rng.randrange(4)
            if way == 0:
                b = spoil(b, where, bytes([b[where] ^ 1 << rng.randrange(8)]))
            elif way == 1:
                b = spoil(b, where, bytes([rng.choice((0, 1, 2, 64, 127, 128, 255))]))
            elif way == 2:
                b = rng.choice((b[:where], b + bytes(rng.randint(1, 24))))
            else:
                other = rng.randrange(len(b))
                b = spoil(b, where, b[other:other + rng.choice((2, 4, 12, 24))])[:len(b)]
            parts[which] = b
        job(f"damaged {('start', 'circuit', 'end')[which]} {i}", *parts, rng.choice((0, 1, 20, MOST)))


# ---- places: the record that was spoiled is the one that is named
def with_fault(s, number):
    """The file of the set with that fault in one of its records, and this record's number; None if no record can have it."""
    b = file_of(s)
    sizes = [12] + [4] * (s.n + 1) + [12] * len(s.inner) + [24] * len(s.leaves)
    begin = [sum(sizes[:p]) for p in range(len(sizes))]
    trs = [p for p in range(1, len(sizes)) if sizes[p] == 12]
    # two records of one state in turn: the later one gets the choices of the earlier one
    twins = [p for p in trs[1:] if b[begin[p] + 2:begin[p] + 4] == b[begin[p] - 10:begin[p] - 8]]
    among = {6: range(1, len(sizes)), 9: [p for p in range(len(sizes)) if sizes[p] == 24], 10: twins}.get(number, trs)
    if not among or s.counts[-1] == 0:
        return None
    p = rng.choice(among)
    where, new = {6: (0, b"tr"), 81: (2, u16(sum(s.counts) - 1)), 82: (8, u16(0)), 83: (10, u16(0)), 84: (4, u32(0)), 9: (4, u32(0)), 10: (4, b[begin[p] - 8:begin[p] - 4])}[number]
    return spoil(b, begin[p] + where, new), p


def records_named(count):
    """Each number that names a record, in records drawn at random, of the start set and of the end set."""
    z1 = file_of(Z1)
    for number in NAMING:
        made = 0
        while made < count:
            s, _, _ = start_and_image(0, 20, rng.randint(2, 4))
            found = with_fault(s, number)
            if found is None:
                continue
            b, place = found
            made += 1
            assert job(f"{number} at record {place} of the start {made}", b, b"GT", z1, 0) == check.Answer(REFUSED, number, 1, place)
            assert job(f"{number} at record {place} of the end {made}", z1, gt(1, 1), b, 0) == check.Answer(REFUSED, number, 3, place)
            kinds["the record that was spoiled"] += 2
    # two TR records at fault: the earlier one is named, whatever the numbers
    for first in (81, 82, 83, 84):
        for second in (81, 82, 83, 84):
            b = faulty(rng.randint(2, 4), second, b=faulty(rng.randint(0, 1), first))
            place = read_set(b)[1]
            assert place in (4, 5) and job(f"{first} before {second}", b, b"", z1, 0) == check.Answer(REFUSED, first, 1, place)
            kinds["the record that was spoiled"] += 1
