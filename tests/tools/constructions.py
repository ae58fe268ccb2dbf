"""The tool's members, states and gates agree with the reference's, which shares no code with it: on random sets and gates."""
import itertools
import random

from common import Tally, random_files, random_gate, reference_sets
import gates as reference
from zhargutai import gates, sets, states

tally, rng = Tally(), random.Random(20)
for b in random_files(500, 7):
    s, mine = reference_sets.read_set(b), sets.from_bytes(b)
    gate = random_gate(rng, s.n)
    new = reference.build(s, gate)
    made = gates.built(mine, (*gate, 0))
    if isinstance(new, int):
        right = {15: lambda: mine.k + 1 > 64, 14: lambda: made is None or gates.over_bounds(made), 16: lambda: True}[new]()
        tally.holds(f"refusal {new}", right)
    else:
        tally.same(f"gate {gate}", sets.to_bytes(made), reference_sets.file_of(new))
    if s.n > 5:
        continue
    known = reference.members(s, 12)
    tally.same("members", list(itertools.islice(states.members(mine), 12)), [m[:2] for m in known])
    for root, word, vector in known:
        k, terms = gates.applied(states.state_of(mine, root, word), s.n, (*gate, 0))
        after = reference.apply(vector, s.n, gate)
        tally.holds(f"matrix of {gate}", all(reference.same(x, (k, *terms.get(i, (0, 0, 0, 0)))) for i, x in enumerate(after)))
tally.end("members, states and gates", 1000)
