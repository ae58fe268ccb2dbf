"""Sets for the one-gate jobs: random ones of any depth and width, whose states share choices, and sets grown until a gate's result has an exact size."""
from sets import Set, least

END = 1 << 30
SMALL = (0, 0, 0, 1, -1, 2, -3, 5)
ENDS = (0, 0, 1, -1, END, -END, END - 1, 1 - END, END >> 1, -(END >> 1), (END >> 1) + 1)


def split(rng, choices, most, used):
    """Disjoint masks over these choices, in order of least choice; each choice is used with this chance."""
    parts = [0] * rng.randint(1, most)
    for c in choices:
        if rng.random() < used:
            parts[rng.randrange(len(parts))] |= 1 << c
    return sorted((m for m in parts if m), key=least)


def random_set(rng, n, widths, choices, most, missing=0.05, used=0.9, values=SMALL, k=0):
    """A set of n qubits. widths: the fewest and most states of a level; choices: how many a level has; most: transitions of a state;
    missing: the chance that a state has none; used: the chance that a state uses one of the level's choices."""
    counts = [rng.randint(*widths) for _ in range(n + 1)]
    first = [sum(counts[:i]) for i in range(n + 2)]
    inner, leaves = [], []
    for level in range(n + 1):
        pool = rng.sample(range(32), rng.randint(*choices))
        for q in range(first[level], first[level + 1]):
            if rng.random() < missing:
                continue
            for m in split(rng, pool, most, used):
                if level < n:
                    inner.append((q, m, rng.randrange(first[level + 1], first[level + 2]), rng.randrange(first[level + 1], first[level + 2])))
                else:
                    leaves.append((q, m, tuple(rng.choice(values) for _ in range(4))))
    return Set(n, k, tuple(counts), tuple(inner), tuple(leaves))


class Draft:
    """A set that can be added to: by level, a list of states, each a list of (mask, (left, right)) with places in the next level, or of (mask, amplitude)."""

    def __init__(self, s):
        self.n, self.k = s.n, s.k
        first = [sum(s.counts[:i]) for i in range(s.n + 2)]
        level = [i for i, c in enumerate(s.counts) for _ in range(c)]
        self.levels = [[[] for _ in range(c)] for c in s.counts]
        for q, m, l, r in s.inner:
            at = level[q]
            self.levels[at][q - first[at]].append((m, (l - first[at + 1], r - first[at + 1])))
        for q, m, x in s.leaves:
            self.levels[s.n][q - first[s.n]].append((m, x))

    def set(self):
        first = [sum(len(states) for states in self.levels[:i]) for i in range(self.n + 2)]
        inner, leaves = [], []
        for level, states in enumerate(self.levels):
            for place, rows in enumerate(states):
                for m, x in sorted(rows, key=lambda row: least(row[0])):
                    if level < self.n:
                        inner.append((first[level] + place, m, first[level + 1] + x[0], first[level + 1] + x[1]))
                    else:
                        leaves.append((first[level] + place, m, x))
        return Set(self.n, self.k, tuple(len(states) for states in self.levels), tuple(inner), tuple(leaves))

    def add(self, level, rows):
        self.levels[level].append(rows)
        return len(self.levels[level]) - 1

    def add_root(self, rng, rows):
        self.levels[0].insert(rng.randint(0, len(self.levels[0])), rows)

    def more_states(self, rng, count):
        """So many further states in any gate's result: roots without transitions."""
        for _ in range(count):
            self.add_root(rng, [])

    def more_inner(self, rng, count):
        """So many further inner transitions in any gate's result: new roots with the children of a root's transition."""
        children = next(row[1] for rows in self.levels[0] for row in rows)
        while count > 0:
            part = min(count, 32)
            self.add_root(rng, [(1 << c, children) for c in rng.sample(range(32), part)])
            count -= part

    def more_leaves(self, rng, count, code):
        """So many further leaf transitions in the result of this gate: new paths from new roots. H gives each leaf twice."""
        twice = code == 4
        if twice:
            assert count % 2 == 0
            count //= 2
        empty = self.add(self.n, [])
        bare = [empty]
        for level in range(self.n - 1, 0, -1):
            bare.insert(0, self.add(level, [(1, (bare[0], bare[0]))]))
        while count > 0:
            part = min(count, 32)
            child = self.add(self.n, [(1 << c, tuple(rng.choice(SMALL) for _ in range(4))) for c in rng.sample(range(32), part)])
            for level in range(self.n - 1, 0, -1):
                child = self.add(level, [(1, (child, child if twice else bare[level]))])
            self.add_root(rng, [(1, (child, child if twice else bare[0]))])
            count -= part
