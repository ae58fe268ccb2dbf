"""What a gate makes: of one state, by its matrix, and of a set, by docs/RULES.md G1 to G10. The first explains a failure, the second gives sizes."""
from . import amplitudes, sets
from .amplitudes import ZERO
from .sets import BOUNDS, Set
from .states import TERMS, TooLarge

PHASE = {3: 4, 5: 2, 6: 6, 7: 1, 8: 7, 10: 4}


def applied(x, n, gate):
    """A state after one gate."""
    code, target, control, last = gate
    k, terms = x
    t, c, d = (1 << (n - q) if q else 0 for q in (target, control, last))
    if code == 4:
        out = {}
        for i, v in terms.items():
            for j, w in ((i & ~t, v), (i | t, amplitudes.turn(v, 4) if i & t else v)):
                out[j] = amplitudes.plus(out.get(j, ZERO), w)
        out = {i: v for i, v in out.items() if v != ZERO}
        if len(out) > TERMS:
            raise TooLarge
        return k + 1, out
    if code in (1, 9, 12):
        return k, {i ^ t if i & c == c and i & d == d else i: v for i, v in terms.items()}
    if code == 2:
        return k, {i ^ t: amplitudes.turn(v, 6 if i & t else 2) for i, v in terms.items()}
    if code == 11:
        return k, {i ^ t ^ c if bool(i & t) != bool(i & c) else i: v for i, v in terms.items()}
    return k, {i: amplitudes.turn(v, PHASE[code]) if i & t and i & c == c else v for i, v in terms.items()}


# ---- what a gate builds of a set: states are keys (kind, tag, old, old)
PLAIN, INSIDE, PAIR, SHIFTED = range(4)


def met(us, vs):
    """(mask, of the one, of the other) of each two transitions whose masks meet, by least choice."""
    return sorted(((m & o, x, y) for m, x in us for o, y in vs if m & o), key=lambda r: sets.least(r[0]))


def acted(code, left, right):
    """The children at the target."""
    if code in (1, 9):
        return (PLAIN, 0, right, 0), (PLAIN, 0, left, 0)
    if code == 2:
        return (SHIFTED, 6, right, 0), (SHIFTED, 2, left, 0)
    if code == 4:
        return (PAIR, 0, left, right), (PAIR, 1, left, right)
    return (PLAIN, 0, left, 0), (SHIFTED, PHASE[code], right, 0)


class Building:
    """One gate of codes 1 to 10 on one set."""

    def __init__(self, s, gate):
        self.code, self.target, self.control, _ = gate
        if self.code == 10:
            self.target, self.control = max(gate[1:3]), min(gate[1:3])
        self.inner, self.ends = sets.transitions(s)

    def children(self, level, key):
        """(mask, left, right) of a key's transitions."""
        kind, tag, q, p = key
        if kind == PAIR:
            for mask, x, y in met(self.inner.get(q, ()), self.inner.get(p, ())):
                if self.code == 9 and level == self.control:
                    x, y = (y, x) if tag else (x, y)
                    yield mask, (PLAIN, 0, x[0], 0), (PLAIN, 0, y[1], 0)
                else:
                    yield mask, (PAIR, tag, x[0], y[0]), (PAIR, tag, x[1], y[1])
            return
        for mask, (left, right) in self.inner.get(q, ()):
            yield mask, *self.single(level, kind, tag, left, right)

    def single(self, level, kind, tag, left, right):
        guarded = self.code >= 9
        if kind == SHIFTED:
            return (SHIFTED, tag, left, 0), (SHIFTED, tag, right, 0)
        if level == self.target and (kind == INSIDE or not guarded):
            return acted(self.code, left, right)
        if kind == INSIDE:
            return (INSIDE, 0, left, 0), (INSIDE, 0, right, 0)
        if guarded and level == self.target and self.control > self.target:
            return (PAIR, 0, left, right), (PAIR, 1, left, right)
        if guarded and level == self.control and self.control < self.target:
            return (PLAIN, 0, left, 0), (INSIDE, 0, right, 0)
        return (PLAIN, 0, left, 0), (PLAIN, 0, right, 0)

    def leaves(self, key):
        kind, tag, q, p = key
        if kind == PAIR:
            join = amplitudes.minus if tag else amplitudes.plus
            return [(mask, join(x, y)) for mask, x, y in met(self.ends.get(q, ()), self.ends.get(p, ()))]
        return [(mask, amplitudes.turn(x, tag)) for mask, x in self.ends.get(q, ())]


def built(s, gate, give_up=8):
    """The set after a gate; None where a level makes it this many times too large to go on."""
    if gate[0] == 11:
        a, b = gate[2], gate[1]
        for target, control in ((b, a), (a, b), (b, a)):
            s = s and built(s, (9, target, control, 0), give_up)
        return s
    work = Building(s, gate)
    counts, inner, leaves = [], [], []
    keys, base = [(PLAIN, 0, root, 0) for root in range(s.counts[0])], 0
    for level in range(1, s.n + 1):
        counts.append(len(keys))
        place = {}
        for i, key in enumerate(keys):
            for mask, *pair in work.children(level, key):
                inner.append((base + i, mask, *(place.setdefault(child, base + len(keys) + len(place)) for child in pair)))
        if len(place) > give_up * BOUNDS[0] or len(inner) > give_up * BOUNDS[1]:
            return None
        base, keys = base + len(keys), list(place)
    counts.append(len(keys))
    for i, key in enumerate(keys):
        leaves += [(base + i, mask, x) for mask, x in work.leaves(key)]
    return Set(s.n, s.k + (gate[0] == 4), counts, inner, leaves)


def sizes(s):
    return sum(s.counts), len(s.inner), len(s.leaves)


def over_bounds(s):
    return any(size > most for size, most in zip(sizes(s), BOUNDS))
