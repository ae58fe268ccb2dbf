"""Set files and circuits by documents 01 and 02, written apart from the checker: reading, refusals 1 to 12 with their places, and writing."""
import struct
from dataclasses import dataclass

RANGE = 1 << 30
BOUNDS = (1024, 2048, 1024)
END_BOUNDS = (128, 2048, 1024)
# the numbers of a set's refusals in their order, and those that name a record
SET_NUMBERS = (1, 2, 3, 4, 5, 6, 7, 81, 82, 83, 84, 9, 10)
NAMING = (6, 81, 82, 83, 84, 9, 10)


@dataclass(frozen=True)
class Set:
    n: int
    k: int
    counts: tuple      # states on each level, level 1 first
    inner: tuple       # (state, mask, left, right)
    leaves: tuple      # (state, mask, (a, b, c, d))


def least(mask):
    return (mask & -mask).bit_length() - 1


def file_of(s):
    out = struct.pack("<2sBBBBHHH", b"HD", 1, s.n, s.k, 0, sum(s.counts), len(s.inner), len(s.leaves))
    out += b"".join(struct.pack("<2sH", b"LV", c) for c in s.counts)
    out += b"".join(struct.pack("<2sHIHH", b"TR", *t) for t in s.inner)
    out += b"".join(struct.pack("<2sHI4i", b"LF", q, m, *x) for q, m, x in s.leaves)
    return out


def clash(records):
    """The number of the first record that is out of order, or shares a choice with an earlier one of its state; None where there is none."""
    last, used = (-1, -1), {}
    for number, (q, m, *_) in records:
        if (q, least(m)) <= last or used.get(q, 0) & m:
            return number
        last = q, least(m)
        used[q] = used.get(q, 0) | m
    return None


def fault_of_tr(on, n, q, m, left, right):
    """81 to 84, or 0."""
    if on(q) is None or on(q) > n:
        return 81
    if on(left) != on(q) + 1:
        return 82
    if on(right) != on(q) + 1:
        return 83
    return 0 if m else 84


def read_set(b, bounds=BOUNDS):
    """The set, or (number, place) of its refusal: the place is the record's number in the file, HD being 0, for 6, 81 to 84, 9 and 10, else 0."""
    if len(b) < 12 or b[:2] != b"HD":
        return 1, 0
    version, n, k, zero, states, inner, leaves = struct.unpack("<4B3H", b[2:12])
    if version != 1:
        return 2, 0
    if not 1 <= n <= 20 or k > 64 or zero:
        return 3, 0
    if states > bounds[0] or inner > bounds[1] or leaves > bounds[2]:
        return 4, 0
    if len(b) != 12 + 4 * (n + 1) + 12 * inner + 24 * leaves:
        return 5, 0
    # the file from the front, record by record, each with its number
    lv, tr, lf = [], [], []
    at, number, wrong = 12, 0, None
    for mark, form, count, records in ((b"LV", "<H", n + 1, lv), (b"TR", "<HIHH", inner, tr), (b"LF", "<HI4i", leaves, lf)):
        for _ in range(count):
            number += 1
            if wrong is None and b[at:at + 2] != mark:
                wrong = number
            records.append((number, struct.unpack_from(form, b, at + 2)))
            at += 2 + struct.calcsize(form)
    if wrong is not None:
        return 6, wrong
    counts = [r[0] for _, r in lv]
    if counts[0] == 0 or sum(counts) != states:
        return 7, 0
    level = [i for i, c in enumerate(counts, 1) for _ in range(c)]

    def on(q):
        return level[q] if q < states else None

    for number, r in tr:
        fault = fault_of_tr(on, n, *r)
        if fault:
            return fault, number
    for number, (q, m, *x) in lf:
        if on(q) != n + 1 or m == 0 or any(abs(v) > RANGE for v in x):
            return 9, number
    for records in (tr, lf):
        if clash(records) is not None:
            return 10, clash(records)
    return Set(n, k, tuple(counts), tuple(r for _, r in tr), tuple((q, m, tuple(x)) for _, (q, m, *x) in lf))


def read_circuit(b, n, one=False):
    """The gates (code, target, control), or (number, place)."""
    if one and len(b) != 6:
        return 11, 0
    if len(b) % 6 or len(b) // 6 > 4096:
        return 11, 0
    gates = []
    for i in range(0, len(b), 6):
        mark, code, target, control, zero = b[i:i + 2], b[i + 2], b[i + 3], b[i + 4], b[i + 5]
        wrong = mark != b"GT" or not 1 <= code <= 10 or not 1 <= target <= n or zero
        if code <= 8:
            wrong |= control != 0
        else:
            wrong |= not 1 <= control <= n or control == target
        if wrong:
            return 12, i // 6 + 1
        gates.append((code, target, control))
    return gates


def gt(code, target, control=0):
    return bytes([71, 84, code, target, control, 0])


# the sets of document 01's examples
Z1 = Set(1, 0, (1, 2), ((0, 1, 1, 2),), ((1, 1, (1, 0, 0, 0)), (2, 1, (0, 0, 0, 0))))
B2 = Set(2, 0, (1, 2, 2), ((0, 1, 1, 2), (0, 2, 2, 1), (1, 1, 3, 4), (1, 2, 4, 3), (2, 3, 4, 4)),
         ((3, 1, (1, 0, 0, 0)), (4, 1, (0, 0, 0, 0))))
E2 = Set(2, 1, (1, 3, 3),
         ((0, 1, 1, 2), (0, 2, 1, 3), (1, 1, 4, 5), (1, 2, 5, 4), (2, 1, 5, 4), (2, 2, 4, 5), (3, 1, 5, 6), (3, 2, 6, 5)),
         ((4, 1, (1, 0, 0, 0)), (5, 1, (0, 0, 0, 0)), (6, 1, (-1, 0, 0, 0))))
