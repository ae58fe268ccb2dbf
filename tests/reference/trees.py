"""States of many qubits as shared trees, and the gates' matrices on them: equal trees are one object, so that a tree of 2^20 amplitudes may take few of them.

A leaf is an amplitude (k, a, b, c, d) that √2 does not divide, or zero; only one such tuple has a given value. An inner tree is a Node.
"""
from functools import lru_cache

from gates import PHASE, add, omega, root2, take, transitions


class Node:
    """Made by node alone, which gives the same object for the same two children."""
    __slots__ = ("left", "right")

    def __init__(self, left, right):
        self.left, self.right = left, right


node = lru_cache(maxsize=None)(Node)


@lru_cache(maxsize=None)
def leaf(x):
    k, x = x[0], x[1:]
    if not any(x):
        return 0, 0, 0, 0, 0
    while all(v % 2 == 0 for v in root2(x, 1)):
        k, x = k - 1, tuple(v // 2 for v in root2(x, 1))
    return k, *x


# ---- members
def members(s, most=None):
    """(root, word, tree) in their order."""
    inner, leaves = transitions(s)
    found = []

    def tree(taken):
        """taken: by level, what each state met there goes to, on the last level its leaf."""
        made = taken[-1]
        for level in reversed(taken[:-1]):
            made = {q: node(made[left], made[right]) for q, (left, right) in level.items()}
        return made[root]

    def walk(level, states, word, taken):
        for c in range(32):
            if most is not None and len(found) >= most:
                return
            goes = {}
            for q in states:
                goes[q] = take((inner if level <= s.n else leaves).get(q, ()), c)
                if goes[q] is None:
                    break
            else:
                go(level, word + (c,), taken + [goes])

    def go(level, word, taken):
        if level <= s.n:
            walk(level + 1, {p for pair in taken[-1].values() for p in pair}, word, taken)
        else:
            leaf_of = {q: leaf((s.k,) + x) for q, x in taken[-1].items()}
            found.append((root, word, tree(taken[:-1] + [leaf_of])))

    for root in range(s.counts[0]):
        walk(1, {root}, (), [])
    return found


# ---- matrices
@lru_cache(maxsize=None)
def turned(t, j):
    """Times ω^j."""
    if isinstance(t, Node):
        return node(turned(t.left, j), turned(t.right, j))
    return leaf((t[0],) + omega(t[1:], j))


@lru_cache(maxsize=None)
def summed(t, u):
    """(t + u)/√2"""
    if isinstance(t, Node):
        return node(summed(t.left, u.left), summed(t.right, u.right))
    k, *x = add(t, u)
    return leaf((k + 1, *x))


@lru_cache(maxsize=None)
def chosen(t, u, depth):
    """t where the qubit at this depth is 0, u where it is 1."""
    if depth == 0:
        return node(t.left, u.right)
    return node(chosen(t.left, u.left, depth - 1), chosen(t.right, u.right, depth - 1))


@lru_cache(maxsize=None)
def applied(t, code, target, control):
    """target and control: how far below the top of t, control None where it is 1 or there is none."""
    if control == 0:
        return node(t.left, applied(t.right, code, target - 1, None))
    if target > 0:
        below = None if control is None else control - 1
        return node(applied(t.left, code, target - 1, below), applied(t.right, code, target - 1, below))
    if control is not None:
        changed = applied(t, code, 0, None)
        return node(chosen(t.left, changed.left, control - 1), chosen(t.right, changed.right, control - 1))
    if code in (1, 9):
        return node(t.right, t.left)
    if code == 2:
        return node(turned(t.right, 6), turned(t.left, 2))
    if code == 4:
        return node(summed(t.left, t.right), summed(t.left, turned(t.right, 4)))
    return node(t.left, turned(t.right, PHASE.get(code, 4)))


def apply(t, gate):
    code, target, control = gate
    return applied(t, code, target - 1, control - 1 if code >= 9 else None)
