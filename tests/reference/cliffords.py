"""The 24 Clifford elements of one qubit as exact matrices, and the jobs that the entries for sequences are held to.

An element is a matrix over a + bω + cω² + dω³, divided by √2^k, up to a power of ω: the elements are what H and S generate. Nothing here works with
images but their number, which is read off U X U† and U Z U†.

usage: cliffords.py FILE

FILE: "ZQC1", the number of jobs (4 bytes), then the jobs. A job: a letter, its name, then for
  C, a closing element: the sequence, the reply (64 bytes);
  S, a spelled element: its number (4 bytes), the reply (64 bytes) for an output that is long enough, the codes;
  R, a sequence that returns: the sequence, the qubit (4 bytes), the start set, the end set, the number of members (4 bytes), and an end set that fails.
Each part without a size here comes after its length (4 bytes). Numbers are little-endian.
"""
import itertools
import random
import struct
import sys
from dataclasses import replace
from functools import reduce

from sets import B2, Z1, file_of

MOST, LETTERS, IDENTITY = 4096, 6, 2
REFUSED, MADE = 0, 1
CODES = {"H": 4, "S": 5}


# ---- amplitudes and matrices: (k, four rows of four numbers), divided by √2^k
def omega(x, j=1):
    for _ in range(j % 8):
        x = (-x[3], x[0], x[1], x[2])
    return x


def add(x, y):
    return tuple(map(sum, zip(x, y)))


def times(x, y):
    return reduce(add, (tuple(v * c for v in omega(x, j)) for j, c in enumerate(y)))


def root2(x):
    return add(omega(x, 1), omega(x, 7))


def reduced(k, entries):
    """Divided by √2 as often as the entries allow."""
    while k > 0 and all(v % 2 == 0 for x in entries for v in root2(x)):
        k, entries = k - 1, tuple(tuple(v // 2 for v in root2(x)) for x in entries)
    return k, entries


def product(m, n):
    (k, (a, b, c, d)), (l, (e, f, g, h)) = m, n
    return reduced(k + l, tuple(add(times(x, y), times(z, w)) for x, y, z, w in ((a, e, b, g), (a, f, b, h), (c, e, d, g), (c, f, d, h))))


def turned(m, j):
    return m[0], tuple(omega(x, j) for x in m[1])


def adjoint(m):
    """The entries across and conjugated: ω becomes −ω³."""
    a, b, c, d = ((x[0], -x[3], -x[2], -x[1]) for x in m[1])
    return m[0], (a, c, b, d)


def up_to_phase(m):
    """One of the eight matrices that differ by a power of ω: the least."""
    return min(turned(m, j) for j in range(8))


O, I = (0, 0, 0, 0), (1, 0, 0, 0)
ONE = (0, (I, O, O, I))
GATES = {"H": (1, (I, I, I, omega(I, 4))), "S": (0, (I, O, O, omega(I, 2)))}
PAULIS = [(0, (O, I, I, O)), (0, (O, omega(I, 6), omega(I, 2), O)), (0, (I, O, O, omega(I, 4)))]
AXES = [turned(p, 4 * sign) for p in PAULIS for sign in (0, 1)]      # +X, −X, +Y, −Y, +Z, −Z


def number_of(m):
    """4i + j from the axes that X and Z go to."""
    x, z = (AXES.index(product(product(m, p), adjoint(m))) for p in (PAULIS[0], PAULIS[2]))
    return 4 * x + [a for a in range(6) if a // 2 != x // 2].index(z)


# ---- the elements, their products and their words
def played(word):
    """The matrix of a word, the first letter played first."""
    return reduce(lambda m, letter: product(GATES[letter], m), word, ONE)


def generated():
    """Every matrix that H and S make, one for each class, by its number."""
    found, new = {up_to_phase(ONE)}, [ONE]
    while new:
        new = [n for n in {up_to_phase(product(g, m)) for m in new for g in GATES.values()} if n not in found]
        found.update(new)
    return {number_of(m): m for m in found}


ELEMENTS = generated()
NUMBERS = {m: e for e, m in ELEMENTS.items()}
PRODUCTS = [[NUMBERS[up_to_phase(product(ELEMENTS[q], ELEMENTS[p]))] for q in range(24)] for p in range(24)]


def first_words():
    """Every word is tried, shorter ones first, H before S, until each element has one."""
    found = {}
    for length in itertools.count():
        for word in itertools.product("HS", repeat=length):
            found.setdefault(NUMBERS[up_to_phase(played(word))], "".join(word))
        if len(found) == 24:
            return [found[e] for e in range(24)]


def back(p):
    """The one element whose matrix, after that of p, is a power of ω."""
    [q] = [q for q in range(24) if up_to_phase(product(ELEMENTS[q], ELEMENTS[p])) == up_to_phase(ONE)]
    return q


WORDS = first_words()
BACK = [back(p) for p in range(24)]


def closing(sequence):
    return BACK[reduce(lambda p, q: PRODUCTS[p][q], sequence, IDENTITY)]


def power(sequence):
    """The j of the spelled sequence and its closing element, which come to ω^j."""
    m = played("".join(WORDS[e] for e in (*sequence, closing(sequence))))
    [j] = [j for j in range(8) if m == turned(ONE, j)]
    return j


# ---- jobs
def reply(kind, number=0, source=0, count=0):
    return struct.pack("<4B2I", kind, number, source, 0, 0, count).ljust(64, b"\0")


def closing_reply(sequence):
    if len(sequence) > MOST:
        return reply(REFUSED, 23, 2)
    if any(e > 23 for e in sequence):
        return reply(REFUSED, 22, 2)
    return reply(MADE, count=closing(sequence))


def sized(b):
    return struct.pack("<I", len(b)) + b


def closing_job(name, sequence):
    sequence = bytes(sequence)
    return b"C" + sized(name.encode()) + sized(sequence) + closing_reply(sequence)


def spell_job(e):
    good = e < 24
    codes = bytes(CODES[letter] for letter in WORDS[e]) if good else b""
    return b"S" + sized(f"element {e}".encode()) + struct.pack("<I", e) + (reply(MADE, count=len(codes)) if good else reply(REFUSED, 22, 2)) + sized(codes)


def ended(s, j):
    """The set with every leaf times ω^j."""
    return replace(s, leaves=tuple((q, mask, omega(x, j)) for q, mask, x in s.leaves))


def return_job(name, sequence, qubit, start, members):
    j = power(sequence)
    ends = sized(file_of(ended(start, j))) + struct.pack("<I", members) + sized(file_of(ended(start, j + 1)))
    return b"R" + sized(name.encode()) + sized(bytes(sequence)) + struct.pack("<I", qubit) + sized(file_of(start)) + ends


def jobs(rng):
    def sequence(length):
        return [rng.randrange(24) for _ in range(length)]

    yield closing_job("the empty sequence", [])
    yield from (closing_job(f"one element, {e}", [e]) for e in range(24))
    yield from (closing_job(f"two elements, {p} {q}", [p, q]) for p in range(24) for q in range(24))
    yield from (closing_job(f"random {i}", sequence(rng.randrange(MOST + 1))) for i in range(2000))
    for length in (MOST - 1, MOST, MOST + 1, MOST + 2, 65536):
        yield closing_job(f"{length} numbers", sequence(length))
    for length in (1, 2, 100, MOST, MOST + 1):
        for strange in (24, 25, 255):
            yield closing_job(f"{strange} first of {length}", [strange] + sequence(length - 1))
            yield closing_job(f"{strange} last of {length}", sequence(length - 1) + [strange])
            yield closing_job(f"{strange} somewhere in {length}", (lambda s, i: s[:i] + [strange] + s[i + 1:])(sequence(length), rng.randrange(length)))
    yield from (spell_job(e) for e in (*range(24), 24, 25, 100, 255, 256, 258, 65538, (1 << 31) + 2, (1 << 32) - 1))
    for i in range(10):
        s = sequence(i + 1)
        yield return_job(f"returns {i}, Z1", s, 1, Z1, 1)
        yield return_job(f"returns {i}, B2, qubit {1 + i % 2}", s, 1 + i % 2, B2, 4)


def self_test():
    """What document 02 names, and that a table of 24 by 24 closes at one place in each row and column."""
    assert sorted(ELEMENTS) == list(range(24)) and len(NUMBERS) == 24
    named = [number_of(m) for m in (ONE, GATES["S"], GATES["H"], PAULIS[2])]
    assert named == [2, 10, 16, 6], named
    assert all(sorted(row) == list(range(24)) for row in (*PRODUCTS, *zip(*PRODUCTS)))
    assert all(number_of(played(word)) == e for e, word in enumerate(WORDS)) and max(map(len, WORDS)) == LETTERS


def main(path):
    self_test()
    made = list(jobs(random.Random(18)))
    with open(path, "wb") as f:
        f.write(b"ZQC1" + struct.pack("<I", len(made)) + b"".join(made))
    print(f"{len(made)} jobs; 24 elements, 576 products and 24 words as exact matrices")
    return 0


if __name__ == "__main__":
    sys.exit(main(sys.argv[1]))
