"""Members of a set and their states as kets with exact amplitudes, as far as a cap allows.

A state is (k, {ket: amplitude}), kets as numbers with qubit 1 as the highest bit, zero amplitudes left out.
"""
from . import amplitudes, sets
from .amplitudes import ZERO

TERMS = 4096
SHOWN = 16


class TooLarge(Exception):
    """A state has more kets than are followed here."""


def taken(rows, c):
    for mask, to in rows:
        if mask >> c & 1:
            return to
    return None


def members(s):
    """(root, word) of each member, in order. What has no word below is remembered, so that the next one is found soon."""
    inner, ends = sets.transitions(s)
    barren = set()

    def below(level, reached):
        table = inner if level <= s.n else ends
        common = (1 << 32) - 1
        for q in reached:
            own = 0
            for mask, _ in table.get(q, ()):
                own |= mask
            common &= own
        if (level, reached) in barren:
            return
        found = False
        for c in sets.choices(common):
            if level > s.n:
                found = True
                yield (c,)
                continue
            children = frozenset(child for q in reached for child in taken(table[q], c))
            for word in below(level + 1, children):
                found = True
                yield (c, *word)
        if not found:
            barren.add((level, reached))

    for root in range(s.counts[0]):
        for word in below(1, frozenset((root,))):
            yield root, word


def state_of(s, root, word):
    """The state of a member; None where root and word give none."""
    inner, ends = sets.transitions(s)
    reached, rows = {root}, []
    for level in range(s.n):
        goes = {q: taken(inner.get(q, ()), word[level]) for q in reached}
        if None in goes.values():
            return None
        rows.append(goes)
        reached = {child for pair in goes.values() for child in pair}
    leaves = {q: taken(ends.get(q, ()), word[s.n]) for q in reached}
    if None in leaves.values():
        return None
    made = {q: {0: x} if x != ZERO else {} for q, x in leaves.items()}
    for level in range(s.n - 1, -1, -1):
        bit = 1 << (s.n - 1 - level)
        made = {q: made[left] | {bit | i: x for i, x in made[right].items()} for q, (left, right) in rows[level].items()}
        if any(len(v) > TERMS for v in made.values()):
            raise TooLarge
    return s.k, made[root]


def equal(x, y):
    top = max(x[0], y[0])
    return at(x, top) == at(y, top)


def at(x, k):
    """The amplitudes by ket, as numbers at this k."""
    return {i: amplitudes.raised(v, k - x[0]) for i, v in x[1].items()}


def turned(x, j):
    return x[0], {i: amplitudes.turn(v, j) for i, v in x[1].items()}


def differing(x, y):
    """The kets at which two states differ."""
    top = max(x[0], y[0])
    u, v = at(x, top), at(y, top)
    return sorted(i for i in u.keys() | v.keys() if u.get(i, ZERO) != v.get(i, ZERO))


def ket(i, n):
    return f"|{i:0{n}b}>"


def shown(x, n, most=SHOWN):
    """(|00> - i|11>)/sqrt2, as `zt pack` reads it; the first kets where there are many."""
    k, terms = x
    if not terms:
        return "0"
    k = max(amplitudes.least(v, k)[1] for v in terms.values())
    scaled = {}
    for i, v in terms.items():
        small, own = amplitudes.least(v, x[0])
        scaled[i] = amplitudes.raised(small, k - own)
    out = ""
    for i in sorted(scaled)[:most]:
        text = amplitudes.spelled(scaled[i])
        many = sum(v != 0 for v in scaled[i]) > 1
        sign = "-" if text[0] == "-" and not many else "+"
        text = f"({text})" if many else text.lstrip("-")
        out += (f" {sign} " if out else "-" if sign == "-" else "") + ("" if text == "1" else text) + ket(i, n)
    if len(scaled) > most:
        out += f" + .. {len(scaled) - most} more kets"
    return f"({out}){amplitudes.over(k)}" if k else out
