"""Random jobs of the check: an image as end set, written another way or spoiled; mixtures, unions, choices that must be gone back over; deep sets; k far apart."""
import itertools

import check
import check_sets
from check import FAILS, HOLDS
from check_jobs import MOST, kinds, on_sets, rng, small_enough, with_allowances
from check_named import flat
from check_sets import SPOILED, WRITTEN, fits, misled, mixture, of_vectors
from gate_sets import END, Draft, random_set
from gates import apply, build, members, root2
from sets import Set

TINY = (0, 0, 0, 0, 1, 1, -1, 2)
K_APART = (0, 1, 2, 59, 60, 63, 64)
INVERSE = {5: 6, 6: 5, 7: 8, 8: 7}


def random_gate(n):
    code = rng.randint(1, 10 if n > 1 else 8)
    if rng.random() < 0.25:
        code = 4
    target = rng.randint(1, n)
    return code, target, rng.choice([q for q in range(1, n + 1) if q != target]) if code >= 9 else 0


def random_circuit(n, most=12):
    return [random_gate(n) for _ in range(rng.randint(0, most))]


def carried(s, circuit):
    for gate in circuit:
        s = build(s, gate)
        if isinstance(s, int):
            return None
    return s


def random_start(n=None, most=60, values=TINY):
    """A set with some members, but not too many."""
    while True:
        s = random_set(rng, n or rng.choice((1, 2, 2, 3, 3, 4, 4)), (1, 3), (1, 3), 2, missing=rng.choice((0, 0, 0.1)), used=rng.choice((0.7, 0.9, 1)), values=values,
                       k=rng.choice((0, 0, 0, 1, 2, 5, 40)))
        if 0 < len(members(s, most + 1)) <= most:
            return s


def start_and_image(gates_most=12, most=60, n=None):
    """A start set, a circuit, and what it builds, small enough for an end set with something added."""
    while True:
        s = random_start(n, most)
        circuit = random_circuit(s.n, gates_most)
        image = carried(s, circuit)
        if image is not None and sum(image.counts) <= 90 and len(members(image, most + 1)) <= most:
            return s, circuit, image


def changed(s, changes):
    """The set after these changes; one that does not go is left out."""
    draft = Draft(s)
    for change in changes:
        trial = Draft(draft.set())
        if change(rng, trial) and fits(trial):
            draft = trial
    return draft.set()


def inverse(circuit):
    return [(INVERSE.get(code, code), target, control) for code, target, control in reversed(circuit)]


def images(count):
    """The end set is the image, written another way."""
    for i in range(count):
        s, circuit, image = start_and_image()
        e = changed(image, rng.choices(WRITTEN, k=rng.randint(0, 6)))
        if not small_enough(e):
            e = image
        full = with_allowances(f"image {i}", s, circuit, e)
        assert full.kind == HOLDS and full.count > 0
        kinds["image"] += 1


def each_way(count):
    """The image written another way, each way by itself."""
    for way in WRITTEN:
        made = 0
        while made < count:
            s, circuit, image = start_and_image(6)
            draft = Draft(image)
            if not way(rng, draft) or not fits(draft) or not small_enough(draft.set()):
                continue
            made += 1
            assert with_allowances(f"image, {way.__name__} {made}", s, circuit, draft.set(), 1).kind == HOLDS
            kinds[f"image {way.__name__}"] += 1


def spoiled(count):
    """The image, written another way, with one thing spoiled."""
    for i in range(count):
        s, circuit, image = start_and_image()
        e = changed(image, rng.choices(WRITTEN, k=rng.randint(0, 4)))
        e = changed(e if small_enough(e) else image, [rng.choice(SPOILED)])
        full = with_allowances(f"spoiled {i}", s, circuit, e)
        kinds["spoiled"] += 1
        kinds["spoiled and fails"] += full.kind == FAILS


def mixtures(count):
    """The starts are states of the end set, and then mixtures of them, carried back through the circuit."""
    i = 0
    while i < count:
        e = random_start(rng.choice((1, 2, 2, 3, 3)), 200)
        circuit = random_circuit(e.n, 6)
        real, mixed = rng.sample([v for _, _, v in members(e)], min(len(members(e)), rng.randint(0, 3))), [mixture(rng, e) for _ in range(rng.randint(1, 3))]
        vectors = real + [v for v in mixed if v is not None]
        for gate in inverse(circuit):
            vectors = [apply(v, e.n, gate) for v in vectors]
        s = of_vectors(rng, e.n, vectors) if vectors else None
        if s is None or carried(s, circuit) is None or s.k + sum(gate[0] == 4 for gate in circuit) > 64:
            continue
        i += 1
        with_allowances(f"mixture {i}", s, circuit, e)
        kinds["mixture"] += 1


def joined(s, t):
    """The states of both sets, by further choices on every level where they are free, else by further roots."""
    draft, other = Draft(s), Draft(t)
    places = [len(states) for states in draft.levels]
    for level, states in enumerate(other.levels):
        for rows in states:
            draft.add(level, [(m, x if level == s.n else tuple(child + places[level + 1] for child in x)) for m, x in rows])
    check_sets.shuffled(rng, draft)
    return draft.set() if fits(draft) else None


def unions(count):
    """Two sets as one, which shares states and choices of both: roots of both, or the choices of one root."""
    i = 0
    while i < count:
        n = rng.randint(1, 3)
        (s, circuit, image), (_, _, other) = start_and_image(5, 30, n), start_and_image(0, 30, n)
        other = Set(n, image.k, other.counts, other.inner, other.leaves)
        e = joined(image, other)
        if e is None or not small_enough(e):
            continue
        i += 1
        assert with_allowances(f"union {i}", s, circuit, e, 1).kind == HOLDS
        e = changed(e, [check_sets.merged, rng.choice(SPOILED)])
        with_allowances(f"union spoiled {i}", s, circuit, e, 1)
        kinds["union"] += 1


def going_back(count):
    """Some choice of the end set fits only so far, and another one must be tried."""
    i = 0
    while i < count:
        s, circuit, image = start_and_image(6, 20)
        e = changed(image, rng.choices((misled, check_sets.shuffled, check_sets.echoed, check_sets.split, check_sets.raised), k=2) + [misled] * rng.randint(1, 3))
        if not small_enough(e):
            continue
        i += 1
        assert with_allowances(f"going back {i}", s, circuit, e, 1).kind == HOLDS
        with_allowances(f"going back spoiled {i}", s, circuit, changed(e, [rng.choice(SPOILED)]), 1)


def two_end_states(count):
    """A state of the image meets two of the end set: alike, or one of them spoiled."""
    i = 0
    while i < count:
        s, circuit, image = start_and_image(5, 30)
        e = changed(image, [check_sets.merged] + [check_sets.split] * rng.randint(1, 4))
        if not small_enough(e):
            continue
        i += 1
        assert with_allowances(f"two end states {i}", s, circuit, e, 1).kind == HOLDS
        with_allowances(f"two end states, one spoiled {i}", s, circuit, changed(image, [check_sets.merged, check_sets.doubled, check_sets.shuffled]), 1)


def at_random(count):
    for i in range(count):
        n = rng.choice((1, 1, 1, 2, 2, 3))
        values = rng.choice(((0, 0, 0, 0, 1), (1,), (0,), TINY))
        while True:
            s, e = random_start(n, 60, values), random_start(n, 200, values)
            circuit = random_circuit(n, rng.choice((0, 1, 12)))
            if carried(s, circuit) is not None:
                break
        with_allowances(f"random {i}", s, circuit, Set(n, rng.choice((e.k, s.k, s.k)), e.counts, e.inner, e.leaves), 1)
        kinds["random"] += 1


def narrow(n, wide):
    """A set of n qubits with few members: one choice on most levels, two on some."""
    draft = Draft(random_set(rng, n, (1, wide), (1, 1), 1, missing=0, used=1, values=TINY, k=rng.choice((0, 0, 3))))
    for _ in range(rng.randint(0, 3)):
        level = rng.randrange(n + 1)
        c = rng.choice([c for c in range(32) if c not in check_sets.choices(draft, level)])
        for rows in draft.levels[level]:
            if level < n:
                rows.append((1 << c, tuple(rng.randrange(len(draft.levels[level + 1])) for _ in "lr")))
            else:
                rows.append((1 << c, tuple(rng.choice(TINY) for _ in range(4))))
    return draft.set()


def deep(count):
    """5 to 20 qubits, by shared trees."""
    for i in range(count):
        n = 5 + i % 16
        while True:
            s, circuit = narrow(n, 2 if n > 12 else 3), random_circuit(n, 5)
            image = carried(s, circuit)
            if image is not None and sum(image.counts) <= 110:
                break
        ways = [way for way in WRITTEN if way is not check_sets.echoed]
        e = changed(image, rng.choices(ways, k=3))
        full = with_allowances(f"deep, n {n}, {i}", s, circuit, e)
        assert full.kind == HOLDS
        for _ in range(10):
            bad = changed(e, [rng.choice(SPOILED)])
            if check.verdict(s, circuit, bad, MOST).kind == FAILS:
                break
        with_allowances(f"deep, spoiled, n {n}, {i}", s, circuit, bad)


def k_apart(count):
    """One leaf on each side, their k apart: equal, unequal by one in one coefficient, and at both ends of the range."""
    values = (-END, -END // 2, -1, 0, 1, END // 2, END)
    leaves = list(itertools.product(values, repeat=4))
    for d in K_APART:
        def held(kind, x, y):
            """The leaf x at a k that is d under that of y, as start and as end."""
            low = rng.randint(0, 64 - d)
            for s, e in ((flat(x, low), flat(y, low + d)), (flat(y, low + d), flat(x, low))):
                full = on_sets(f"k {d} apart, {kind}, {x} and {y}", s, [], e, MOST)
                assert full.kind == (HOLDS if root2(x, d) == y else FAILS)
                kinds[f"k {d} apart, {kind}"] += 1

        fitting = [x for x in leaves if max(map(abs, root2(x, d))) <= END]
        far = [x for x in fitting if END in map(abs, x + root2(x, d))]
        for x in rng.sample(fitting, min(count, len(fitting))) + rng.sample(far, min(count, len(far))):
            y = root2(x, d)
            held("equal", x, y)
            for i in range(4):
                off = y[i] + (-1 if y[i] == END else 1 if y[i] == -END else rng.choice((-1, 1)))
                held("unequal by one", x, y[:i] + (off,) + y[i + 1:])
        for x in rng.sample([x for x in leaves if set(map(abs, x)) == {END}], count):
            for y in sorted({(0, 0, 0, 0), tuple(-v for v in x), root2(x, d % 2)} - {root2(x, d)}):
                if max(map(abs, y)) <= END:
                    held("at the ends", x, y)
