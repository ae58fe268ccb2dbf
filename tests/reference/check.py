"""The check by document 01, written apart from the checker: start by start, each carried through the gates' matrices and sought among all states of the end set.

What the gates build serves for refusals 14 to 16 alone. A state of up to DENSE qubits is a dense vector, a deeper one a shared tree (trees.py).
"""
import struct
from collections import namedtuple

import trees
from gates import apply, build, members, root2
from sets import END_BOUNDS, read_circuit, read_set

DENSE = 6
KINDS = ("refused", "made", "holds", "fails", "undecided")
REFUSED, _, HOLDS, FAILS, UNDECIDED = range(5)
Answer = namedtuple("Answer", "kind number source place count root word", defaults=(0, 0, 0, 0, 0, ()))


def ready(start, circuit, end):
    """The start set, the gates and the end set, or the refusal: start set, circuit, end set, 13, then gate by gate."""
    s = read_set(start)
    if isinstance(s, tuple):
        return Answer(REFUSED, s[0], 1, s[1])
    gates = read_circuit(circuit, s.n)
    if isinstance(gates, tuple):
        return Answer(REFUSED, gates[0], 2, gates[1])
    e = read_set(end, END_BOUNDS)
    if isinstance(e, tuple):
        return Answer(REFUSED, e[0], 3, e[1])
    if e.n != s.n:
        return Answer(REFUSED, 13)
    image = s
    for place, gate in enumerate(gates, 1):
        image = build(image, gate)
        if isinstance(image, int):
            return Answer(REFUSED, image, 2, place)
    return s, gates, e


def by_vectors(s, gates, e, most):
    """The first starts as (root, word, carried state), and the states of the end set; equal states are equal values.

    Every amplitude is multiplied by √2 until its k is that of the greatest; over whole numbers that keeps apart what is apart.
    """
    k = max(s.k + sum(gate[0] == 4 for gate in gates), e.k)

    def state(vector):
        return tuple(root2(x[1:], k - x[0]) for x in vector)

    def carried(vector):
        for gate in gates:
            vector = apply(vector, s.n, gate)
        return state(vector)

    return ((root, word, carried(v)) for root, word, v in members(s, most)), {state(v) for _, _, v in members(e)}


def by_trees(s, gates, e, most):
    """The same with shared trees."""
    def carried(tree):
        for gate in gates:
            tree = trees.apply(tree, gate)
        return tree

    return ((root, word, carried(t)) for root, word, t in trees.members(s, most)), {t for _, _, t in trees.members(e)}


def verdict(s, gates, e, allowance, way=None):
    starts, states = (way or (by_vectors if s.n <= DENSE else by_trees))(s, gates, e, allowance + 1)
    count = 0
    for root, word, state in starts:
        if count == allowance:
            return Answer(UNDECIDED, count=allowance)
        count += 1
        if state not in states:
            return Answer(FAILS, count=count, root=root, word=word)
    return Answer(HOLDS, count=count)


def answer(start, circuit, end, allowance):
    job = ready(start, circuit, end)
    return job if isinstance(job, Answer) else verdict(*job, allowance)


def line_of(a):
    """The printed line, without its newline."""
    fields = {REFUSED: (a.number, a.source, a.place), HOLDS: (a.count,), FAILS: (a.count, a.root, *a.word), UNDECIDED: (a.count,)}[a.kind]
    return " ".join(map(str, (KINDS[a.kind], *fields)))


def reply_of(a):
    """The 64 bytes of the C entry (docs/REPLY.md)."""
    return struct.pack("<4B3I", a.kind, a.number, a.source, 0, a.place, a.count, a.root) + bytes(a.word).ljust(48, b"\0")


def check(start, circuit, end, allowance):
    return line_of(answer(start, circuit, end, allowance))
