"""Gates by document 01, written apart from the checker: what each gate builds, and the matrices on dense vectors of exact amplitudes.

An amplitude is (k, a, b, c, d): (1/√2)^k (a + bω + cω² + dω³).
"""
from sets import BOUNDS, RANGE, Set, least

PHASE = {3: 4, 5: 2, 6: 6, 7: 1, 8: 7}


# ---- amplitudes
def omega(x, j):
    for _ in range(j % 8):
        x = (-x[3], x[0], x[1], x[2])
    return x


def root2(x, j):
    for _ in range(j):
        a, b, c, d = x
        x = (b - d, a + c, b + d, c - a)
    return x


def add(x, y):
    """The sum of two amplitudes with their k."""
    k = max(x[0], y[0])
    return (k,) + tuple(p + q for p, q in zip(root2(x[1:], k - x[0]), root2(y[1:], k - y[0])))


def same(x, y):
    k = max(x[0], y[0])
    return root2(x[1:], k - x[0]) == root2(y[1:], k - y[0])


# ---- the automaton
def transitions(s):
    """By state: lists of (mask, (left, right)) and of (mask, amplitude)."""
    inner, leaves = {}, {}
    for q, m, l, r in s.inner:
        inner.setdefault(q, []).append((m, (l, r)))
    for q, m, x in s.leaves:
        leaves.setdefault(q, []).append((m, x))
    return inner, leaves


def take(alternatives, c):
    for m, x in alternatives:
        if m >> c & 1:
            return x
    return None


def members(s, most=None):
    """(root, word, dense vector) in their order."""
    inner, leaves = transitions(s)
    found = []

    def walk(level, states, word):
        """states: the states at the 2^(level-1) places, left to right."""
        if most is not None and len(found) >= most:
            return
        for c in range(32):
            if take((inner if level <= s.n else leaves).get(states[0], ()), c) is None:
                continue
            if level == s.n + 1:
                got = [take(leaves.get(q, ()), c) for q in states]
                if None not in got:
                    found.append((root, word + (c,), [(s.k,) + x for x in got]))
                continue
            distinct = {q: take(inner.get(q, ()), c) for q in set(states)}
            if None not in distinct.values():
                walk(level + 1, [k for q in states for k in distinct[q]], word + (c,))

    for root in range(s.counts[0]):
        walk(1, [root], ())
    return found[:most] if most is not None else found


# ---- what a gate builds, over keys
def meet(us, vs, f):
    """One for each two whose masks meet, in order of least choice."""
    out = [(m & n, f(x, y)) for m, x in us for n, y in vs if m & n]
    return sorted(out, key=lambda a: least(a[0]))


def build(s, gate):
    """The new set, or the number of the refusal: 15, then 14, then 16."""
    code, target, control = gate
    inner, leaves = transitions(s)
    if code == 10:
        target, control = max(target, control), min(target, control)
    above = code >= 9 and control < target
    below = code == 9 and control > target
    growth = 1 if code == 4 else 0

    def at_target(l, r):
        if code in (1, 9):
            return ("plain", r), ("plain", l)
        if code == 2:
            return ("shifted", 6, r), ("shifted", 2, l)
        if code == 4:
            return ("pair", l, r, "L"), ("pair", l, r, "R")
        return ("plain", l), ("shifted", PHASE.get(code, 4), r)

    def kids(level, key):
        kind = key[0]
        if kind == "plain":
            for m, (l, r) in inner.get(key[1], ()):
                if below and level == target:
                    yield m, (("pair", l, r, "L"), ("pair", l, r, "R"))
                elif above and level == control:
                    yield m, (("plain", l), ("inside", r))
                elif not above and not below and level == target:
                    yield m, at_target(l, r)
                else:
                    yield m, (("plain", l), ("plain", r))
        elif kind == "shifted":
            for m, (l, r) in inner.get(key[2], ()):
                yield m, (("shifted", key[1], l), ("shifted", key[1], r))
        elif kind == "inside":
            for m, (l, r) in inner.get(key[1], ()):
                yield m, at_target(l, r) if level == target else (("inside", l), ("inside", r))
        else:
            _, q, p, side = key

            def both(x, y):
                if below and level == control:
                    return (("plain", x[0]), ("plain", y[1])) if side == "L" else (("plain", y[0]), ("plain", x[1]))
                return ("pair", x[0], y[0], side), ("pair", x[1], y[1], side)

            yield from meet(inner.get(q, ()), inner.get(p, ()), both)

    def ends(key):
        kind = key[0]
        if kind == "shifted":
            return [(m, omega(x, key[1])) for m, x in leaves.get(key[2], ())]
        if kind == "pair":
            sign = 1 if key[3] == "L" else -1
            return meet(leaves.get(key[1], ()), leaves.get(key[2], ()), lambda x, y: tuple(a + sign * b for a, b in zip(x, y)))
        return list(leaves.get(key[1], ()))

    counts, trs, lfs = [], [], []
    keys, base = [("plain", r) for r in range(s.counts[0])], 0
    for level in range(1, s.n + 1):
        counts.append(len(keys))
        following, number, after = [], {}, base + len(keys)
        for i, key in enumerate(keys):
            for m, pair in kids(level, key):
                for child in pair:
                    if child not in number:
                        number[child] = after + len(following)
                        following.append(child)
                trs.append((base + i, m, number[pair[0]], number[pair[1]]))
        keys, base = following, after
    counts.append(len(keys))
    for i, key in enumerate(keys):
        lfs += [(base + i, m, x) for m, x in ends(key)]

    if s.k + growth > 64:
        return 15
    if base + len(keys) > BOUNDS[0] or len(trs) > BOUNDS[1] or len(lfs) > BOUNDS[2]:
        return 14
    if any(abs(v) > RANGE for _, _, x in lfs for v in x):
        return 16
    return Set(s.n, s.k + growth, tuple(counts), tuple(trs), tuple(lfs))


# ---- the gate's matrix on a dense vector, qubit 1 the most significant
def scaled(x, j):
    return (x[0],) + omega(x[1:], j)


def over_root2(x):
    return (x[0] + 1,) + x[1:]


MATRIX = {
    1: lambda x, y: (y, x),
    2: lambda x, y: (scaled(y, 6), scaled(x, 2)),
    4: lambda x, y: (over_root2(add(x, y)), over_root2(add(x, scaled(y, 4)))),
    9: lambda x, y: (y, x),
    10: lambda x, y: (x, scaled(y, 4)),
}
for _code, _j in PHASE.items():
    MATRIX[_code] = lambda x, y, j=_j: (x, scaled(y, j))


def apply(vector, n, gate):
    code, target, control = gate
    out = list(vector)
    t = n - target
    for i in range(len(vector)):
        if i >> t & 1 or (code >= 9 and not i >> (n - control) & 1):
            continue
        out[i], out[i | 1 << t] = MATRIX[code](vector[i], vector[i | 1 << t])
    return out


def equal(v, w):
    return all(same(x, y) for x, y in zip(v, w))
