"""What is wrong with a set file, record by record, in the words of docs/RULES.md (R1 to R3). It explains refusals; it decides none.

Numbers are the new ones, 81 to 84 in place of 8. A program that says 8 is answered with those.
"""
from collections import namedtuple

from . import sets
from .amplitudes import MOST
from .sets import BOUNDS, COUNTED, END_STATES

Fault = namedtuple("Fault", "number record offset bytes what")
TR_FAULTS = (81, 82, 83, 84)


def heading(b, end):
    """Faults of HD and of the length: 1 to 5."""
    h = sets.header(b)
    if h is None:
        what = f"the file has {len(b)} bytes, a set has at least 12" if len(b) < 12 else f"it begins with {b[:2]!r}, a set begins with HD"
        return [Fault(1, 0, 0, b[:12], what)]
    version, n, k, zero, *counts = h
    found = []
    if version != 1:
        found.append((2, f"version {version}, expected 1"))
    for wrong, what in ((not 1 <= n <= 20, f"n is {n}, expected 1 to 20"), (k > 64, f"k is {k}, expected 0 to 64"), (zero != 0, f"byte 5 is {zero}, expected 0")):
        if wrong:
            found.append((3, what))
    bounds = (END_STATES if end else BOUNDS[0], *BOUNDS[1:])
    for name, count, most in zip(COUNTED, counts, bounds):
        if count > most:
            found.append((4, f"{count} {name}, at most {most}" + (" in an end set" if end and most == END_STATES else "")))
    size = sets.size_of(n, counts[1], counts[2])
    if len(b) != size:
        found.append((5, f"{len(b)} bytes, and the counts give {size}: 12, {n + 1} levels of 4, {counts[1]} inner of 12, {counts[2]} leaves of 24"))
    return [Fault(number, 0, 0, b[:12], what) for number, what in found]


def marks(b):
    return [Fault(6, number, at, r, f"its mark is {r[:2]!r}, expected {kind}") for number, kind, at, r in sets.records(b) if r[:2] != kind.encode()]


def level_counts(b, s):
    found = []
    if s.counts and s.counts[0] == 0:
        found.append(Fault(7, 1, sets.HD, b[sets.HD:sets.HD + sets.LV], "level 1 has no state, expected at least one root"))
    if sum(s.counts) != s.total():
        found.append(Fault(7, 0, 0, b[:12], f"the levels have {sum(s.counts)} states in all, and HD says {s.total()}"))
    return found


def transition(row, n, level):
    """Faults of one TR record."""
    q, mask, left, right = row
    at = level(q)
    if not 1 <= at <= n:
        yield 81, f"state {q} is on {f'level {at}' if at else 'no level'}, expected levels 1 to {n}"
    else:
        for number, side, child in ((82, "left", left), (83, "right", right)):
            if level(child) != at + 1:
                yield number, f"{side} child {child} is on {f'level {level(child)}' if level(child) else 'no level'}, expected level {at + 1}"
    if mask == 0:
        yield 84, "its mask is zero, expected at least one choice"


def leaf(row, n, level):
    """Faults of one LF record."""
    q, mask, x = row
    if level(q) != n + 1:
        yield 9, f"state {q} is on {f'level {level(q)}' if level(q) else 'no level'}, expected level {n + 1}"
    if mask == 0:
        yield 9, "its mask is zero, expected at least one choice"
    for name, v in zip("abcd", x):
        if abs(v) > MOST:
            yield 9, f"coefficient {name} is {v}, expected at most {MOST} in size"


def order(rows):
    """(index, what) of each record that clashes with an earlier one."""
    seen, before = {}, None
    for i, (q, mask, *_) in enumerate(rows):
        key = (q, sets.least(mask))
        if before is not None and key <= before:
            yield i, f"state {q} with least choice {key[1]} stands after state {before[0]} with least choice {before[1]}, expected an increasing order"
        elif seen.get(q, 0) & mask:
            yield i, f"choices {sets.choices(seen[q] & mask)} of state {q} are those of an earlier record too"
        seen[q] = seen.get(q, 0) | mask
        before = key


def faults(b, end=False):
    """All faults, in the order in which the program would name them."""
    found = heading(b, end)
    if any(f.number in (1, 5) for f in found):
        return found
    if wrong := marks(b):
        return found + wrong
    s = sets.from_bytes(b)
    place = {number: (at, r) for number, _, at, r in sets.records(b)}
    found += level_counts(b, s)
    level = sets.levels(s)
    if sum(s.counts) != s.total():
        counted, inner = level, s.total()
        level = lambda q: counted(q) if q < inner else 0

    def at(first, i, number, what):
        return Fault(number, first + i, *place[first + i], what)

    first_tr, first_lf = s.n + 2, s.n + 2 + len(s.inner)
    found += [at(first_tr, i, number, what) for i, row in enumerate(s.inner) for number, what in transition(row, s.n, level)]
    found += [at(first_lf, i, number, what) for i, row in enumerate(s.leaves) for number, what in leaf(row, s.n, level)]
    for first, rows in ((first_tr, s.inner), (first_lf, s.leaves)):
        found += [at(first, i, 10, what) for i, what in order(rows)]
    return found


def answering(found, number, place=0):
    """The faults that a refusal of this number is about: those at its record, or where it names none the first."""
    mine = [f for f in found if f.number == number or number == 8 and f.number in TR_FAULTS]
    if place:
        mine = [f for f in mine if f.record == place] or mine
    return mine[:1] if number != 5 else mine


def told(f):
    """One fault in a line, and its bytes in a second one."""
    shown = " ".join(f"{x:02x}" for x in f.bytes)
    return f"{f.number}: record {f.record} at byte {f.offset}: {f.what}\n    {shown}"
