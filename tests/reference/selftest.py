"""The reference against itself and document 01's examples: what a gate builds has the old members, and their trees are the matrix applied to the old ones.

usage: selftest.py [GATES]
"""
import random
import sys

from check import check
from gates import apply, build, equal, members
from sets import B2, E2, Set, Z1, file_of, gt, least, read_set


def masks(rng, most):
    """Disjoint masks in order of least choice, over few choices, so that they meet."""
    choices = rng.sample(range(32), rng.choice([2, 2, 3, 4]))
    rng.shuffle(choices)
    parts = [0] * rng.randint(1, most)
    for c in choices:
        if rng.random() < 0.7:
            parts[rng.randrange(len(parts))] |= 1 << c
    return sorted((m for m in parts if m), key=least)


def random_set(rng, n=None):
    n = n or rng.randint(1, 4)
    counts = [rng.randint(1, 3)] + [rng.randint(1, 4) for _ in range(n)]
    first = [sum(counts[:i]) for i in range(n + 2)]
    inner, leaves = [], []
    for level in range(n):
        for q in range(first[level], first[level + 1]):
            if rng.random() < 0.93:
                for m in masks(rng, 3):
                    inner.append((q, m, rng.randrange(first[level + 1], first[level + 2]), rng.randrange(first[level + 1], first[level + 2])))
    big = rng.random() < 0.1
    for q in range(first[n], first[n + 1]):
        if rng.random() < 0.95:
            for m in masks(rng, 2):
                x = tuple(rng.choice([0, 1, -1, 2, 5]) if not big else rng.choice([0, 1073741824, -1073741824, 1]) for _ in range(4))
                leaves.append((q, m, x))
    return Set(n, rng.choice([0, 0, 1, 7, 63, 64]), tuple(counts), tuple(inner), tuple(leaves))


def random_gate(rng, n):
    code = rng.randint(1, 10 if n > 1 else 8)
    target = rng.randint(1, n)
    control = rng.choice([q for q in range(1, n + 1) if q != target]) if code >= 9 else 0
    return code, target, control


def main(count):
    rng = random.Random(1)
    for _ in range(count):
        s = random_set(rng)
        assert read_set(file_of(s)) == s
        g = random_gate(rng, s.n)
        new = build(s, g)
        if isinstance(new, int):
            assert new == (15 if g[0] == 4 and s.k == 64 else 16)
            continue
        assert read_set(file_of(new)) == new
        old, now = members(s, 60), members(new, 60)
        assert [m[:2] for m in old] == [m[:2] for m in now]
        assert all(equal(apply(v, s.n, g), w) for (_, _, v), (_, _, w) in zip(old, now))
    bell = gt(4, 1) + gt(9, 2, 1)
    b2, e2, z1 = file_of(B2), file_of(E2), file_of(Z1)
    h = build(Z1, (4, 1, 0))
    assert (sum(build(B2, (4, 1, 0)).counts), len(build(B2, (4, 1, 0)).inner), len(build(B2, (4, 1, 0)).leaves)) == (11, 10, 6)
    assert [check(b2, bell, e2, b) for b in (4, 3, 0)] == ["holds 4", "undecided 3", "undecided 0"]
    assert check(b2, gt(4, 1), e2, 4) == "fails 1 0 0 0 0"
    assert check(z1, gt(1, 1) + gt(4, 1), file_of(h), 1) == "fails 1 0 0 0"
    print(f"{count} gates and document 01's examples agree")


main(int(sys.argv[1]) if len(sys.argv) > 1 else 300)
