"""Large families of jobs for the check, by the number of qubits: each as the program reads it, with the line that it must print.

The lines are formulas in n. The self-test holds them to check.py, start by start over dense vectors, for small n.

usage: families.py write DIR N..        writes DIR/NAME-N.job and DIR/NAME-N.line of every family for each N, 2 to 20
       families.py random DIR COUNT     writes so many small random jobs of check_random.py in the same way
       families.py self-test
"""
import itertools
import pathlib
import sys

import check
from gate_sets import Draft
from gates import build
from program import input_of
from sets import END_BOUNDS, Set, file_of, gt, read_set

MOST = (1 << 32) - 1
ONE, TWO, MINUS, ZERO = (1, 0, 0, 0), (2, 0, 0, 0), (-1, 0, 0, 0), (0, 0, 0, 0)
TURNED = (ONE, (0, 0, 1, 0), MINUS, (0, 0, -1, 0))
X, H, S, CX = 1, 4, 5, 9


# ---- sets by names
def named(k, levels):
    """By level, each state's name with its (mask, left, right), on the last level with its (mask, amplitude)."""
    n = len(levels) - 1
    draft = Draft(Set(n, k, (0,) * (n + 1), (), ()))
    for level, states in enumerate(levels):
        place = {name: i for i, name in enumerate(levels[level + 1])} if level < n else {}
        for rows in states.values():
            draft.add(level, [(m, (place[x[0]], place[x[1]]) if level < n else x[0]) for m, *x in rows])
    return draft.set()


def turns(path, zero="zero", choice=0):
    """Two transitions: this choice takes the path to the left, the next one to the right."""
    return [(1 << choice, path, zero), (2 << choice, zero, path)]


def mirrored(path):
    """The other way round."""
    return [(1, "zero", path), (2, path, "zero")]


def below(i, states, choices=2):
    """Level i + 1 with these states, and with the state of the zero tree if it is not the first."""
    return states | ({"zero": [((1 << choices) - 1, "zero", "zero")]} if i else {})


# ---- end sets and start sets
def basis(n, copies=1):
    """All basis states, by each of so many roots; every root has its own path, and all share the zero tree."""
    levels = [below(i, {path: turns(path) for path in range(copies)}) for i in range(n)]
    return named(0, levels + [{path: [(1, ONE)] for path in range(copies)} | {"zero": [(1, ZERO)]}])


def ghz_states(n):
    """|0c> + s|1c'> over √2, c' the complement of c: source 000's automaton. The sign s is told first, c level by level."""
    levels = [{"root": [(1, "upper", "plus"), (2, "upper", "minus")]}]
    levels += [below(i, {"upper": turns("upper"), "plus": mirrored("plus"), "minus": mirrored("minus")}) for i in range(1, n)]
    return named(1, levels + [{"upper": [(1, ONE)], "plus": [(1, ONE)], "minus": [(1, MINUS)], "zero": [(1, ZERO)]}])


def ghz_reversed_states(n):
    """|c0> + s|c'1> over √2. The sign is told by the choice of the leaves."""
    levels = [{"root": [(1, "even", "odd"), (2, "odd", "even")]}]
    levels += [below(i, {"even": turns("even"), "odd": mirrored("odd")}) for i in range(1, n - 1)]
    levels += [below(n - 1, {"even": [(1, "even", "zero")], "odd": [(1, "zero", "odd")]})]
    return named(1, levels + [{"even": [(3, ONE)], "odd": [(1, ONE), (2, MINUS)], "zero": [(3, ZERO)]}])


def phased(n):
    """The qubits that S is put on: all of up to 8, else the last 7. Each S doubles the states below it, and 1,024 are allowed."""
    return range(1 if n <= 8 else n - 6, n + 1)


def phase_states(n):
    """Basis states times i^(number of ones among these qubits); a path for each number of ones, counted round 4."""
    def states(i):
        return range(min(4, 1 + sum(q <= i for q in phased(n))))

    def rows(i, ones):
        return [(1, ones, "zero"), (2, "zero", (ones + (i + 1 in phased(n))) % 4)]

    levels = [below(i, {ones: rows(i, ones) for ones in states(i)}) for i in range(n)]
    return named(0, levels + [{ones: [(1, TURNED[ones])] for ones in states(n)} | {"zero": [(1, ZERO)]}])


def every_choice(n, leaf, apart=False):
    """One state on each level, every transition with all 32 choices, or 32 transitions of one choice each; leaf None: no leaf record."""
    masks = [1 << c for c in range(32)] if apart else [MOST]
    levels = [{"state": [(m, "state", "state") for m in masks]} for _ in range(n)]
    return named(0, levels + [{"state": [(m, leaf) for m in masks] if leaf else []}])


def lacking(bits):
    """All basis states but that of these bits. On the path of the bits so far is `so far`, off it is `free`."""
    n = len(bits)

    def rows(i, name):
        to = [name if name == "so far" and bits[i] == side else "free" for side in range(2)]
        return [turns(to[side])[side] for side in range(2) if i < n - 1 or to[side] == "free"]

    levels = [below(i, {name: rows(i, name) for name in ("so far", "free")[:1 + (i > 0)]}) for i in range(n)]
    return named(0, levels + [{"free": [(1, ONE)], "zero": [(1, ZERO)]}])


def with_traps(n, bits=None):
    """All basis states, or all but that of these bits, behind traps: lower roots and lower choices that agree with any basis state on all levels but the last.

    `late`: at the leaves 1 and the zeros beside it have no common choice. `early`: the same one level up, between states. `wrong`: the leaf is 2. Late and
    early lead to each other, so that n levels have 2^n such ways. Only `wrong` is seen by looking at pairs with all choices free.
    """
    def traps(i):
        if i == n - 1:
            return turns("one", "apart") + turns("one", "apart", 2)
        return turns("late") + turns("early", "apart" if i == n - 2 else "zero", 2)

    def wrong(i, choice):
        return turns("two" if i == n - 1 else "wrong", choice=choice)

    def ways(i, name):
        free, path = ("one", None) if i == n - 1 else ("free", "so far")
        sides = [path if name == "so far" and bits[i] == side else free for side in range(2)]
        return [(64 << side, *((to, "zero") if side == 0 else ("zero", to))) for side, to in enumerate(sides) if to]

    def states(i):
        early = turns("one") + turns("one", choice=2) if i == n - 1 else traps(i)
        found = {"late": traps(i), "early": early, "wrong": wrong(i, 0)}
        for name in (["free"] if i or not bits else []) + (["so far"] if bits else []):
            found[name] = traps(i) + wrong(i, 4) + ways(i, name)
        return found | ({"apart": [(1 << 9, "zero", "zero")]} if i == n - 1 else {})

    levels = [below(i, states(i), 8) for i in range(n)]
    return named(0, levels + [{"one": [(1, ONE)], "two": [(1, TWO)], "zero": [(3, ZERO)], "apart": [(2, ZERO)]}])


def low(n):
    """The basis states whose first qubits are 0, all but the last 8."""
    levels = [below(i, {"path": turns("path")[:1 if i < n - 8 else 2]}) for i in range(n)]
    return named(0, levels + [{"path": [(1, ONE)], "zero": [(1, ZERO)]}])


def crowd(n, bits=None, trees=5, poor=False):
    """All basis states, or all but that of these bits, by words that a search finds late, with many kinds of pairs on the way.

    On the last 6 levels the path's other child is one of some zero trees, as the choice says. No two of them have a common choice at the leaves, and on
    the last level it is the last tree: only who took that one on each of these levels ends well. Five trees make 31 sets that may stand beside the path.
    Poor: on the first of the 6 levels a path to the right cannot take the last tree, so that no basis state with a 1 there ends well. Two levels below,
    the first 16 ways from there are those from a 0.
    """
    first, last_tree = max(0, n - 6), trees - 1

    def offered(i, side):
        if i < first:
            return [(0, "zero")]
        kept = [last_tree] if i == n - 1 else range(trees)
        return [(x, x) for x in kept if not (poor and i == first and side == 1 and x == last_tree)]

    def rows(i, name):
        to = [name if name == "so far" and bits[i] == side else "free" for side in range(2)]
        sides = [side for side in range(2) if not (i == n - 1 and to[side] == "so far")]
        return [(1 << 2 * x + side, *((to[side], zero) if side == 0 else (zero, to[side]))) for side in sides for x, zero in offered(i, side)]

    def states(i):
        paths = (["free"] if i or not bits else []) + (["so far"] if bits else [])
        zeros = range(trees) if i > first else ()
        return {name: rows(i, name) for name in paths} | {zero: [((1 << 2 * trees) - 1, zero, zero)] for zero in zeros}

    levels = [below(i, states(i), 2 * trees) for i in range(n)]
    every = (1 << trees) - 1
    return named(0, levels + [{"free": [(every, ONE)], "zero": [(every, ZERO)]} | {x: [(1 << x, ZERO)] for x in range(trees)}])


def many_leaves(n, k, size, choices, masks):
    """One path, and on the last qubit so many choices, each with two leaf states of its own. A leaf state has so many records, all with one amplitude, whose coefficients are this size or 0."""
    amplitudes = [tuple(v * size for v in x) for x in itertools.product((1, -1, 0), repeat=4) if any(x)]
    levels = [{"path": [(1, "path", "path")]} for _ in range(n - 1)]
    levels += [{"path": [(1 << c, 2 * c, 2 * c + 1) for c in range(choices)]}]
    return named(k, levels + [{q: [(1 << m, amplitudes[q]) for m in range(masks)] for q in range(2 * choices)}])


# ---- jobs
def bits_of(place, n):
    """The choices of the basis start of this place, from 1, without that of the leaves."""
    return [place - 1 >> (n - 1 - i) & 1 for i in range(n)]


def fails(place, word):
    return " ".join(map(str, ("fails", place, 0, *word)))


def chain(n, up=False):
    """H and then CX from each qubit to its neighbour: from the first qubit down, or from the last one up."""
    order = range(n, 0, -1) if up else range(1, n + 1)
    return [(H, order[0], 0)] + [(CX, target, control) for control, target in zip(order, order[1:])]


def of_basis_states(n):
    """(name, start set, circuit, end set, allowance, line): jobs over all basis states."""
    all_of = 1 << n
    starts, holds = basis(n), f"holds {all_of}"
    yield "basis", starts, [], starts, MOST, holds
    yield "basis-just-enough", starts, [], starts, all_of, holds
    yield "basis-one-too-few", starts, [], starts, all_of - 1, f"undecided {all_of - 1}"
    yield "ghz", starts, chain(n), ghz_states(n), MOST, holds
    yield "ghz-reversed", starts, chain(n, up=True), ghz_reversed_states(n), MOST, holds
    # −(|0d> − |1d'>) is no state of this end set; the first such is that of the start 0..011
    yield "ghz-other-sign", starts, chain(n, up=True), ghz_states(n), MOST, fails(4, [0] * (n - 2) + [1, 1, 0])
    yield "phases", starts, [(S, q, 0) for q in phased(n)], phase_states(n), MOST, holds
    yield "phases-one-left-out", starts, [(S, q, 0) for q in phased(n)[:-1]], phase_states(n), MOST, fails(2, [0] * (n - 1) + [1, 0])
    yield "copies", basis(n, 4), [(X, q, 0) for q in range(1, n + 1)], basis(n, 4), MOST, f"holds {4 * all_of}"


def of_every_choice(n):
    """Jobs in which a start has 32 choices on each level."""
    allowed, first = min(MOST, 32 ** (n + 1)), [0] * (n + 1)
    same = f"holds {allowed}" if 32 ** (n + 1) <= MOST else f"undecided {allowed}"
    ones = every_choice(n, ONE)
    yield "choices", ones, [], ones, MOST, same
    yield "choices-apart", every_choice(n, ONE, True), [], every_choice(n, ONE, True), MOST, same
    yield "choices-few-allowed", ones, [], ones, 1000, "undecided 1000"
    yield "choices-other-leaf", ones, [], every_choice(n, MINUS), MOST, fails(1, first)
    yield "choices-other-leaf-apart", every_choice(n, ONE, True), [], every_choice(n, MINUS, True), MOST, fails(1, first)
    yield "choices-no-leaf", every_choice(n, None), [], ones, MOST, "holds 0"
    yield "choices-no-leaf-at-the-end", ones, [], every_choice(n, None), MOST, fails(1, first)


def of_one_failing(n):
    """Jobs over all basis states in which one start fails; 777,777 at n = 20."""
    all_of, place = 1 << n, 777777 >> 20 - n
    starts, last, bits = basis(n), bits_of(all_of, n), bits_of(place, n)
    yield "last", starts, [], lacking(last), MOST, fails(all_of, last + [0])
    yield "last-not-allowed", starts, [], lacking(last), all_of - 1, f"undecided {all_of - 1}"
    yield "one", starts, [], lacking(bits), MOST, fails(place, bits + [0])
    yield "traps", starts, [], with_traps(n), MOST, f"holds {all_of}"
    yield "traps-last", starts, [], with_traps(n, last), MOST, fails(all_of, last + [0])
    yield "traps-one", starts, [], with_traps(n, bits), MOST, fails(place, bits + [0])
    yield "traps-one-just-enough", starts, [], with_traps(n, bits), place, fails(place, bits + [0])
    yield "traps-one-not-allowed", starts, [], with_traps(n, bits), place - 1, f"undecided {place - 1}"


def of_crowds(n):
    """Jobs in which each start is found late; 256 starts, fewer for n under 8."""
    free = min(n, 8)
    all_of, place = 1 << free, 777777 >> 20 - free
    starts, bits = low(n), bits_of(place, n)
    yield "crowd", starts, [], crowd(n), MOST, f"holds {all_of}"
    yield "crowd-one", starts, [], crowd(n, bits), MOST, fails(place, bits + [0])
    after = 1 << n - 1 - max(0, n - 6)
    yield "crowd-poor", starts, [], crowd(n, None, 6, True), MOST, fails(after + 1, bits_of(after + 1, n) + [0])
    yield "crowd-one-not-allowed", starts, [], crowd(n, bits), place - 1, f"undecided {place - 1}"


def of_far_k(n):
    """The end set's k is 60 over that of the start set, so that every leaf is multiplied by √2^60 when it is compared: 1,024 leaves with as many, fewer for n under 8."""
    choices, masks = (16, 32) if n >= 8 else (2, 4)
    yield "far-k", many_leaves(n, 0, 1, choices, masks), [], many_leaves(n, 60, 1 << 30, choices, masks), MOST, f"holds {choices * masks}"


def parts(s, circuit, e):
    """The three files; an end set that is too large or a gate that is refused is an error here."""
    assert read_set(file_of(s)) == s and read_set(file_of(e), END_BOUNDS) == e
    image = s
    for gate in circuit:
        image = build(image, gate)
        assert isinstance(image, Set), image
    return file_of(s), b"".join(gt(*gate) for gate in circuit), file_of(e)


def jobs(n):
    """(name, start, circuit, end, allowance, line)"""
    for family in (of_basis_states, of_every_choice, of_one_failing, of_crowds, of_far_k):
        for name, s, circuit, e, allowance, line in family(n):
            yield name, *parts(s, circuit, e), allowance, line


# ---- commands
def put(directory, name, job, line):
    directory = pathlib.Path(directory)
    directory.mkdir(parents=True, exist_ok=True)
    (directory / f"{name}.job").write_bytes(input_of(*job))
    (directory / f"{name}.line").write_text(line + "\n")


def write(directory, numbers):
    for n in numbers:
        for name, *job, line in jobs(n):
            put(directory, f"{name}-{n}", job, line)


def write_random(directory, count):
    """Images as end sets, images with one thing spoiled, and choices to go back over, in turn; none is refused."""
    import check_jobs
    import check_random
    while len(check_jobs.jobs) < count:
        check_random.images(1)
        check_random.spoiled(1)
        check_random.going_back(1)
    for i, (_, start, circuit, end, allowance, _, line) in enumerate(check_jobs.jobs[:count], 1):
        put(directory, f"random-{i}", (start, circuit, end, allowance), line)


def self_test():
    """Every family over dense vectors, for so few qubits that an end set has not too many words."""
    held = 0
    for n in range(1, 6):
        for family in (of_every_choice,) * (n <= 2) + (of_basis_states, of_one_failing, of_far_k) * (n >= 2) + (of_crowds,) * (2 <= n <= 4):
            for name, s, circuit, e, allowance, line in family(n):
                got = check.check(*parts(s, circuit, e), allowance)
                assert got == line, (name, n, line, got)
                held += 1
    print(f"{held} jobs of the families with up to 5 qubits have the line that dense vectors give")


def main(command, *rest):
    if command == "write":
        write(rest[0], map(int, rest[1:]))
    elif command == "random":
        write_random(rest[0], int(rest[1]))
    elif command == "self-test":
        self_test()
    else:
        sys.exit(__doc__)


if __name__ == "__main__":
    main(*sys.argv[1:])
