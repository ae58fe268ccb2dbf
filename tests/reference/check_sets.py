"""End sets for the check's jobs: a set written another way with the same states, spoiled in one place, or given choices that fit only so far; and sets made of given vectors.

Every function but `of_vectors` changes a Draft and says whether it did.
"""
from gate_sets import END, Draft
from gates import omega, root2
from sets import END_BOUNDS, Set, least


def fits(draft, bounds=END_BOUNDS):
    s = draft.set()
    return (sum(s.counts) <= bounds[0] and len(s.inner) <= bounds[1] and len(s.leaves) <= bounds[2] and 0 <= s.k <= 64
            and all(abs(v) <= END for _, _, x in s.leaves for v in x))


def pick(rng, draft, levels=None):
    """A transition somewhere on these levels: its level, the rows of its state, its place in them; None if there is none."""
    levels = range(draft.n + 1) if levels is None else levels
    places = [(level, rows, i) for level in levels for rows in draft.levels[level] for i in range(len(rows))]
    return rng.choice(places) if places else None


def choices(draft, level):
    """The choices that some state of the level has."""
    return [c for c in range(32) if any(m >> c & 1 for rows in draft.levels[level] for m, _ in rows)]


# ---- the same states, written another way
def shuffled(rng, draft):
    """Other numbers: the states of each level in another order."""
    for level, states in enumerate(draft.levels):
        order = rng.sample(range(len(states)), len(states))
        draft.levels[level] = [states[i] for i in order]
        if level > 0:
            new = {old: i for i, old in enumerate(order)}
            for rows in draft.levels[level - 1]:
                rows[:] = [(m, (new[left], new[right])) for m, (left, right) in rows]
    return True


def renamed(rng, draft):
    """Other choices, on each level its own."""
    for states in draft.levels:
        new = rng.sample(range(32), 32)
        for rows in states:
            rows[:] = [(sum(1 << new[c] for c in range(32) if m >> c & 1), x) for m, x in rows]
    return True


def echoed(rng, draft):
    """A further choice that goes where another one goes."""
    level = rng.randrange(draft.n + 1)
    used = choices(draft, level)
    if not used or len(used) == 32:
        return False
    old, new = rng.choice(used), rng.choice([c for c in range(32) if c not in used])
    for rows in draft.levels[level]:
        apart = [(1 << new, x) for m, x in rows if m >> old & 1]
        rows[:] = rows + apart if rng.random() < 0.5 else [(m | 1 << new if m >> old & 1 else m, x) for m, x in rows]
    return True


def parted(rng, draft):
    """A transition of several choices as two transitions."""
    found = pick(rng, draft)
    if found is None or bin(found[1][found[2]][0]).count("1") < 2:
        return False
    _, rows, i = found
    m, x = rows[i]
    part = 1 << rng.choice([c for c in range(32) if m >> c & 1])
    rows[i:i + 1] = [(part, x), (m & ~part, x)]
    return True


def split(rng, draft):
    """A state as two that are alike, each met by some of those that met it."""
    level = rng.randint(1, draft.n)
    if not draft.levels[level]:
        return False
    old = rng.randrange(len(draft.levels[level]))
    new = draft.add(level, list(draft.levels[level][old]))
    for rows in draft.levels[level - 1]:
        rows[:] = [(m, tuple(rng.choice((old, new)) if child == old else child for child in pair)) for m, pair in rows]
    return True


def merged(rng, draft):
    """Each two states of a level that are alike become one."""
    changed = False
    for level in range(draft.n, -1, -1):
        kept, new = [], []
        for rows in draft.levels[level]:
            rows = sorted(rows, key=lambda row: least(row[0]))
            if rows not in kept:
                kept.append(rows)
            new.append(kept.index(rows))
        changed |= len(kept) < len(new)
        draft.levels[level] = kept
        if level > 0:
            for rows in draft.levels[level - 1]:
                rows[:] = [(m, (new[left], new[right])) for m, (left, right) in rows]
    return changed


def raised(rng, draft, by=None):
    """Another k: all leaves multiplied by √2, mostly twice, which doubles them."""
    by = by or rng.choice((1, 2, 2, 2, 4, 7))
    if draft.k + by > 64 or any(abs(v) > END for rows in draft.levels[draft.n] for _, x in rows for v in root2(x, by)):
        return False
    draft.k += by
    for rows in draft.levels[draft.n]:
        rows[:] = [(m, root2(x, by)) for m, x in rows]
    return True


def widened(rng, draft):
    """A further root, which goes anywhere, and a further state that nothing reaches."""
    row = [(1 << rng.randrange(32), tuple(rng.randrange(len(draft.levels[1])) for _ in "lr"))] if draft.levels[1] else []
    draft.add_root(rng, row)
    draft.add(draft.n, [(1 << rng.randrange(32), (7, 7, 7, 7))])
    return True


WRITTEN = (shuffled, renamed, echoed, parted, split, merged, raised, widened)


# ---- spoiled in one place
def leaf_changed(rng, draft):
    found = pick(rng, draft, (draft.n,))
    if found is None:
        return False
    _, rows, i = found
    m, x = rows[i]
    place = rng.randrange(4)
    rows[i] = m, x[:place] + (x[place] + rng.choice((1, -1, 2)),) + x[place + 1:]
    return True


def leaf_turned(rng, draft, by=None):
    """Mostly its sign."""
    found = pick(rng, draft, (draft.n,))
    if found is None:
        return False
    _, rows, i = found
    rows[i] = rows[i][0], omega(rows[i][1], by or rng.choice((4, 4, 4, 1, 2, 7)))
    return True


def child_changed(rng, draft):
    found = pick(rng, draft, range(draft.n))
    if found is None:
        return False
    level, rows, i = found
    m, pair = rows[i]
    side, other = rng.randrange(2), rng.randrange(len(draft.levels[level + 1]))
    rows[i] = m, (other, pair[1]) if side == 0 else (pair[0], other)
    return other != pair[side]


def children_swapped(rng, draft):
    found = pick(rng, draft, range(draft.n))
    if found is None:
        return False
    _, rows, i = found
    rows[i] = rows[i][0], rows[i][1][::-1]
    return True


def dropped(rng, draft):
    """A transition, or one of its choices."""
    found = pick(rng, draft)
    if found is None:
        return False
    _, rows, i = found
    m, x = rows[i]
    left = m & (m - 1) if rng.random() < 0.5 else 0
    rows[i:i + 1] = [(left, x)] if left else []
    return True


def k_changed(rng, draft):
    """The same coefficients under another k."""
    draft.k += rng.choice((1, 1, 2, -1))
    return 0 <= draft.k <= 64


SPOILED = (leaf_changed, leaf_turned, leaf_turned, child_changed, children_swapped, dropped, k_changed)


# ---- states and choices that fit only so far
def copied(draft, level, q, made):
    """The state and all that it reaches, once more."""
    if (level, q) not in made:
        rows = list(draft.levels[level][q])
        if level < draft.n:
            rows = [(m, tuple(copied(draft, level + 1, child, made) for child in pair)) for m, pair in rows]
        made[level, q] = draft.add(level, rows)
    return made[level, q]


def leaf_of_copy_changed(rng, draft, made):
    """One leaf of these copies becomes another one; whether there is a leaf."""
    leaves = [(rows, i) for (level, _), q in made.items() if level == draft.n for rows in [draft.levels[draft.n][q]] for i in range(len(rows))]
    if not leaves:
        return False
    rows, i = rng.choice(leaves)
    m, x = rows[i]
    rows[i] = m, (x[0] + 1,) + x[1:] if rng.random() < 0.5 or not any(x) else omega(x, 4)
    return True


def doubled(rng, draft):
    """A state and a copy of it with one leaf below changed, each met by some of those that met it: what meets both cannot match."""
    level = rng.randint(1, draft.n)
    if not draft.levels[level]:
        return False
    old, made = rng.randrange(len(draft.levels[level])), {}
    new = copied(draft, level, old, made)
    for rows in draft.levels[level - 1]:
        rows[:] = [(m, tuple(rng.choice((old, new)) if child == old else child for child in pair)) for m, pair in rows]
    return leaf_of_copy_changed(rng, draft, made)


def misled(rng, draft, levels=None):
    """A further choice that goes where another one goes, but to copies with one leaf below changed: whoever stays with it finds out late."""
    level = rng.choice(range(draft.n) if levels is None else levels)
    used = choices(draft, level)
    if not used or len(used) == 32:
        return False
    old = rng.choice(used)
    free = [c for c in range(32) if c not in used]
    before = [c for c in free if c < old]
    new = rng.choice(before if before and rng.random() < 0.8 else free)
    made = {}
    for rows in draft.levels[level]:
        for m, pair in [row for row in rows if row[0] >> old & 1]:
            rows.append((1 << new, tuple(copied(draft, level + 1, child, made) for child in pair)))
    return leaf_of_copy_changed(rng, draft, made)


# ---- sets of given states
def mixture(rng, s):
    """A tree of the set in which each place takes a choice of its own, as a vector; None where it cannot go on."""
    draft = Draft(s)

    def grown(level, q):
        rows = draft.levels[level][q]
        if not rows:
            return None
        x = rng.choice(rows)[1]
        if level == s.n:
            return [(s.k,) + x]
        parts = [grown(level + 1, child) for child in x]
        return None if None in parts else parts[0] + parts[1]

    return grown(0, rng.randrange(s.counts[0]))


def of_vectors(rng, n, vectors):
    """A set whose states are these, all with their own root, or one root's choices, or a part of each; None if a coefficient leaves its range."""
    k = max([0] + [x[0] for v in vectors for x in v])
    draft = Draft(Set(n, k, (0,) * (n + 1), (), ()))
    choice = [rng.randrange(32) for _ in range(n + 1)]

    def put(level, v):
        rows = [(1 << choice[level], root2(v[0][1:], k - v[0][0]) if level == n else halves(level, v))]
        states = draft.levels[level]
        return states.index(rows) if rows in states else draft.add(level, rows)

    def halves(level, v):
        return put(level + 1, v[:len(v) // 2]), put(level + 1, v[len(v) // 2:])

    rest = list(vectors)
    while rest:
        part = rest[:rng.choice((1, len(rest), rng.randint(1, len(rest))))][:32]
        rest = rest[len(part):]
        draft.add(0, [(1 << c, halves(0, v)) for c, v in zip(sorted(rng.sample(range(32), len(part))), part)])
    return draft.set() if all(abs(v) <= END for rows in draft.levels[n] for _, x in rows for v in x) and k <= 64 else None
