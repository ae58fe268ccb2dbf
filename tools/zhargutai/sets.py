"""A set as its records say it (docs/FORMAT.md), right or wrong: read from bytes, written to bytes, and told apart into records with offsets.

Whatever the fields say is kept, so that a set with faults can be shown, looked at and written back byte for byte.
"""
import struct
from dataclasses import dataclass, field

HD, LV, TR, LF = 12, 4, 12, 24
BOUNDS = (1024, 2048, 1024)
END_STATES = 128
COUNTED = ("states", "inner transitions", "leaf transitions")


@dataclass
class Set:
    n: int
    k: int = 0
    counts: list = field(default_factory=list)   # states on each level, level 1 first
    inner: list = field(default_factory=list)    # (state, mask, left, right)
    leaves: list = field(default_factory=list)   # (state, mask, (a, b, c, d))
    version: int = 1
    zero: int = 0
    states: int = -1                             # what HD says; -1: the sum of the level counts

    def total(self):
        return sum(self.counts) if self.states < 0 else self.states


def least(mask):
    return (mask & -mask).bit_length() - 1


def choices(mask):
    return [c for c in range(32) if mask >> c & 1]


def size_of(n, inner, leaves):
    return HD + LV * (n + 1) + TR * inner + LF * leaves


def to_bytes(s):
    out = struct.pack("<2sBBBBHHH", b"HD", s.version, s.n, s.k, s.zero, s.total(), len(s.inner), len(s.leaves))
    out += b"".join(struct.pack("<2sH", b"LV", c) for c in s.counts)
    out += b"".join(struct.pack("<2sHIHH", b"TR", *t) for t in s.inner)
    return out + b"".join(struct.pack("<2sHI4i", b"LF", q, m, *x) for q, m, x in s.leaves)


def header(b):
    """version, n, k, zero, states, inner, leaves; None where the bytes do not begin as a set does."""
    return struct.unpack("<4B3H", b[2:HD]) if len(b) >= HD and b[:2] == b"HD" else None


def records(b):
    """(number, kind, offset, bytes) of each record by the counts of HD, as far as the bytes go; none where there is no HD."""
    h = header(b)
    if h is None:
        return
    yield 0, "HD", 0, b[:HD]
    at, number = HD, 1
    for kind, count, size in (("LV", h[1] + 1, LV), ("TR", h[5], TR), ("LF", h[6], LF)):
        for _ in range(count):
            if at + size > len(b):
                return
            yield number, kind, at, b[at:at + size]
            at, number = at + size, number + 1


def from_bytes(b):
    """The set, whatever its numbers say; None where length or marks are not those of a set."""
    h = header(b)
    if h is None or len(b) != size_of(h[1], h[5], h[6]):
        return None
    version, n, k, zero, states, _, _ = h
    s = Set(n, k, [], [], [], version, zero, states)
    for _, kind, _, r in records(b):
        if r[:2] != kind.encode():
            return None
        if kind == "LV":
            s.counts.append(struct.unpack("<H", r[2:])[0])
        elif kind == "TR":
            s.inner.append(struct.unpack("<HIHH", r[2:]))
        elif kind == "LF":
            q, m, *x = struct.unpack("<HI4i", r[2:])
            s.leaves.append((q, m, tuple(x)))
    if s.states == sum(s.counts):
        s.states = -1
    return s


def first_states(s):
    """The number of the first state of each level, and one past the last state."""
    firsts = [0]
    for c in s.counts:
        firsts.append(firsts[-1] + c)
    return firsts


def levels(s):
    """A function from a state's number to its level, 0 for a number that is on none."""
    from bisect import bisect_right
    firsts = first_states(s)
    return lambda q: bisect_right(firsts, q) if q < firsts[-1] else 0


def transitions(s):
    """By state: [(mask, (left, right))] and [(mask, amplitude)]."""
    inner, ends = {}, {}
    for q, m, left, right in s.inner:
        inner.setdefault(q, []).append((m, (left, right)))
    for q, m, x in s.leaves:
        ends.setdefault(q, []).append((m, x))
    return inner, ends
