"""The jobs of the check, as they are made: each with the answer that check.py gives, counted by what it shows.

Every verdict over few members is also held to shared trees, and to a search over pairs of states. A job counts for an error of errors.py
if a checker with that error would answer otherwise; such checkers are tried on up to 4 qubits.
"""
import random
from collections import Counter

import check
import errors
import trees
from check import FAILS, HOLDS, UNDECIDED
from sets import END_BOUNDS, file_of, gt, read_set

MOST = (1 << 32) - 1
rng = random.Random(30)
jobs, kinds = [], Counter()


def job(name, start, circuit, end, allowance):
    ready = check.ready(start, circuit, end)
    if isinstance(ready, check.Answer):
        answer = ready
        kinds.update((f"number {answer.number}, source {answer.source}", f"number {answer.number}", "refused"))
        if answer.place > 1:
            kinds[f"number {answer.number}, source {answer.source}, a later {'gate' if answer.source == 2 else 'record'}"] += 1
        if allowance == 0:
            kinds["refused, allowance 0"] += 1
    else:
        answer = check.verdict(*ready, allowance)
        note(name, *ready, allowance, answer)
    jobs.append((name, start, circuit, end, allowance, check.reply_of(answer), check.line_of(answer)))
    return answer


def note(name, s, circuit, e, allowance, answer):
    shown = {
        f"n {s.n}": True,
        check.KINDS[answer.kind]: True,
        "holds with members": answer.kind == HOLDS and answer.count > 0,
        "holds with no member": answer.kind == HOLDS and answer.count == 0,
        "holds, several members": answer.kind == HOLDS and answer.count > 1,
        "holds, allowance just enough": answer.kind == HOLDS and answer.count == allowance > 0,
        "fails at place 1": answer.kind == FAILS and answer.count == 1,
        "fails at a later place": answer.kind == FAILS and answer.count > 1,
        "fails at the last place allowed": answer.kind == FAILS and answer.count == allowance,
        "fails at a later root": answer.kind == FAILS and answer.root > 0,
        "fails at a root over 255": answer.root > 255,
        "fails with 21 choices": len(answer.word) == 21,
        "count over 65,535": answer.count > 65535,
        "undecided 0": answer.kind == UNDECIDED and allowance == 0,
        "undecided, later": answer.kind == UNDECIDED and allowance > 0,
        "undecided before a failure": answer.kind == UNDECIDED and s.n <= 4 and check.verdict(s, circuit, e, allowance + 1).kind == FAILS,
        "empty circuit": not circuit,
        "several gates": len(circuit) > 1,
        "k apart": answer.count > 0 and answer.kind == HOLDS and e.k != s.k + sum(gate[0] == 4 for gate in circuit),
        "several roots at the start": s.counts[0] > 1,
        "several roots at the end": e.counts[0] > 1,
        "choice 31 in a failing word": answer.kind == FAILS and 31 in answer.word,
        "allowance 2^32-1": allowance == MOST,
    }
    kinds.update(k for k, yes in shown.items() if yes)
    if len(circuit) > 20 or answer.count > 400 or not small_enough(e):
        return
    kinds["held to trees and to a search"] += 1
    assert check.verdict(s, circuit, e, allowance, check.by_trees) == answer, name
    answers = errors.verdicts(s, circuit, e, allowance)
    assert answers.pop(None) == answer, name
    kinds.update(f"catches {error}" for error, other in answers.items() if other != answer)


def small_enough(e):
    return len(trees.members(e, 1001)) <= 1000


def circuit_of(circuit):
    return b"".join(gt(*gate) for gate in circuit)


def on_sets(name, s, circuit, e, allowance):
    assert read_set(file_of(s)) == s and read_set(file_of(e), END_BOUNDS) == e, name
    return job(name, file_of(s), circuit_of(circuit), file_of(e), allowance)


def with_allowances(name, s, circuit, e, count=2):
    """Some of the allowances that matter for these three."""
    total, full = len(trees.members(s)), check.verdict(s, circuit, e, MOST)
    asked = [0, 1, total, max(total - 1, 0), total + 1, MOST, full.count, max(full.count - 1, 0), full.count + 1]
    likely = [full.count] * 3 + [MOST] * 3 + [max(full.count - 1, 0)] * 2
    for allowance in sorted(rng.sample(asked + likely, count)):
        on_sets(f"{name}, B {allowance}", s, circuit, e, allowance)
    return full
