"""Checkers with the errors that document 01 says look reasonable, and one without: what the check's jobs are counted by, to see that each error would be caught.

All go by the built image and by pairs of an image state and an end state, as a fast checker may, not by vectors.
"""
import gates
from check import FAILS, HOLDS, UNDECIDED, Answer
from gates import build, same, transitions
from trees import members

BUILT = ("masks joined", "pair turned round")
ERRORS = ("mixtures", "the last end state alone", "the first end state alone", "no going back", "k ignored", *BUILT)


def image_of(s, circuit, error):
    """What the gates build; None where an error leads nowhere."""
    kept = gates.meet
    if error == "masks joined":
        gates.meet = lambda us, vs, f: [(m | n, f(x, y)) for m, x in us for n, y in vs if m & n]
    if error == "pair turned round":
        gates.meet = lambda us, vs, f: kept(us, vs, lambda x, y: f(y, x) if len(x) == 4 else f(x, y))
    try:
        for gate in circuit:
            s = build(s, gate)
            if isinstance(s, int):
                return None
        return s
    finally:
        gates.meet = kept


def by_choice(s):
    """By level: by state and choice what the state goes to."""
    inner, leaves = transitions(s)
    first = [sum(s.counts[:level]) for level in range(s.n + 2)]
    table = [leaves if level == s.n else inner for level in range(s.n + 1)]
    return [{q: {c: x for m, x in table[level].get(q, ()) for c in range(32) if m >> c & 1} for q in range(first[level], first[level + 1])} for level in range(s.n + 1)]


def finder(image, e, error=None):
    """Whether a member of the image is a state of the end set."""
    here, there = by_choice(image), by_choice(e)

    def equal(x, y):
        return x == y if error == "k ignored" else same((image.k,) + x, (e.k,) + y)

    def below(goes):
        pairs = [(x[side], y[side]) for x, y in goes for side in (0, 1)]
        if error == "the last end state alone":
            return list(dict(pairs).items())
        if error == "the first end state alone":
            return list(dict(reversed(pairs)).items())
        return list(dict.fromkeys(pairs))

    def found(level, word, row):
        """row: the pairs that must match; one choice d of the end set for all of them."""
        if error == "mixtures" and len(row) > 1:
            return all(found(level, word, [pair]) for pair in row)
        for d in sorted(there[level][row[0][1]]):
            goes = [(here[level][p].get(word[level]), there[level][q].get(d)) for p, q in row]
            if any(x is None or y is None for x, y in goes):
                continue
            if level == image.n:
                if all(equal(x, y) for x, y in goes):
                    return True
            elif found(level + 1, word, below(goes)):
                return True
            elif error == "no going back":
                return False
        return False

    return lambda root, word: any(found(0, word, [(root, q)]) for q in range(e.counts[0]))


def verdicts(s, circuit, e, allowance):
    """By error, and for None without one, the answer; no answer where an error leads nowhere. On many qubits without errors alone."""
    starts, answers, right = members(s, allowance + 1), {}, image_of(s, circuit, None)
    for error in (None, *ERRORS) if s.n <= 4 else (None,):
        image = image_of(s, circuit, error) if error in BUILT else right
        if image is not None:
            answers[error] = verdict(starts, finder(image, e, error), allowance)
    return answers


def verdict(starts, finds, allowance):
    for count, (root, word, _) in enumerate(starts):
        if count == allowance:
            return Answer(UNDECIDED, count=allowance)
        if not finds(root, word):
            return Answer(FAILS, count=count + 1, root=root, word=word)
    return Answer(HOLDS, count=len(starts))
