"""A gate's result held to the gate's matrix: the same members, with the amplitudes that the matrix gives."""
from gates import MATRIX, apply, equal, members, same, take, transitions


def dense(s, gate, new):
    """All members of a set with few words, as dense vectors. How many there were; None if the set has too many words for it."""
    words = 1
    for level in range(s.n + 1):
        below = sum(s.counts[:level])
        rows = [t[1] for t in s.inner + s.leaves if below <= t[0] < below + s.counts[level]]
        words *= 1 + bin(joined(rows)).count("1")
    if s.n > 7 or words * 2 ** s.n * s.counts[0] > 60000:
        return None
    old, now = members(s), members(new)
    assert [m[:2] for m in old] == [m[:2] for m in now]
    assert all(equal(apply(v, s.n, gate), w) for (_, _, v), (_, _, w) in zip(old, now))
    return len(old)


def joined(masks):
    total = 0
    for m in masks:
        total |= m
    return total


def word_from(rng, s, rows, root, chosen=None):
    """A random word that gives the root a tree, or whether the chosen one does."""
    inner, leaves = rows
    states, word = {root}, []
    for level in range(s.n + 1):
        table = inner if level < s.n else leaves
        common = (1 << 32) - 1
        for q in states:
            common &= joined(m for m, _ in table.get(q, ()))
        choices = [c for c in range(32) if common >> c & 1]
        if chosen is not None:
            choices = [c for c in choices if c == chosen[level]]
        if not choices:
            return None
        word.append(rng.choice(choices))
        if level < s.n:
            states = {child for q in states for child in take(inner[q], word[-1])}
    return tuple(word)


def at(s, rows, root, word, index):
    """The amplitude of a member's tree at a basis state, qubit 1 the most significant."""
    q = root
    for level in range(s.n):
        q = take(rows[0][q], word[level])[index >> (s.n - 1 - level) & 1]
    return (s.k,) + take(rows[1][q], word[s.n])


def sampled(rng, s, gate, new):
    """Some members, from either side, at some basis states; whether there was one."""
    code, target, control = gate
    old_rows, new_rows = transitions(s), transitions(new)
    found = False
    for tried in range(6):
        root = rng.randrange(s.counts[0])
        here, there = ((s, old_rows), (new, new_rows))[:: 1 if tried % 2 else -1]
        word = word_from(rng, *here, root)
        if word is None:
            continue
        found = True
        assert word_from(rng, *there, root, word) == word
        for _ in range(4):
            i = rng.randrange(2 ** s.n) & ~(1 << (s.n - target))
            j = i | 1 << (s.n - target)
            pair = at(s, old_rows, root, word, i), at(s, old_rows, root, word, j)
            if code < 9 or i >> (s.n - control) & 1:
                pair = MATRIX[code](*pair)
            assert same(pair[0], at(new, new_rows, root, word, i)) and same(pair[1], at(new, new_rows, root, word, j))
    return found
