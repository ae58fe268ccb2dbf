"""Sets from what a physicist writes: `basis 3`, `ket 0x1`, sums of kets. Equal subtrees become one state.

A node has the transitions of one state, (mask, left, right) or (mask, amplitude). The same transitions are one object, so that states are found by their nodes.
"""
import re

from . import amplitudes
from .amplitudes import MOST, ONE, ZERO
from .faults import Fault
from .sets import Set

KET = re.compile(r"\s*\|([01]+)(?:>|⟩)")
OVER = re.compile(r"\s*/\s*(?:(sqrt2|√2|2)(?:\s*\^\s*([0-9]{1,3}))?)")


class Node:
    """Made by node alone, which gives the same object for the same transitions."""
    __slots__ = ("rows",)

    def __init__(self, rows):
        self.rows = rows


known = {}


def node(*rows):
    return known.setdefault(rows, Node(rows))


def qubits_of(text, line):
    if not 1 <= len(text) <= 20:
        raise Fault(f"1 to 20 qubits were expected, found {len(text)}", line)
    return len(text)


def pattern(text, line):
    """The root of `ket 0x1`: every ket of the pattern, x for either; and its number of qubits."""
    if not re.fullmatch("[01x]+", text):
        raise Fault(f"a pattern of 0, 1 and x was expected, found {text!r}", line)
    n = qubits_of(text, line)
    path, zero = node((1, ONE)), node((1, ZERO))
    for c in reversed(text):
        rows = {"0": [(1, path, zero)], "1": [(1, zero, path)], "x": [(1, path, zero), (2, zero, path)]}[c]
        path, zero = node(*rows), node((3 if c == "x" else 1, zero, zero))
    return path, n


def sum_of(text, line):
    """The kets of `(|00> - i|11>)/sqrt2`: amplitudes by ket, k, the number of qubits."""
    body, k = text.strip(), 0
    if body.startswith("("):
        close = body.rfind(")")
        if close < 0:
            raise Fault("a closing bracket was expected after the sum of kets", line)
        tail, body = body[close + 1:], body[1:close]
        over = OVER.fullmatch(tail.rstrip()) if tail.strip() else None
        if tail.strip() and not over:
            raise Fault(f"/sqrt2, /sqrt2^3 or /2 was expected after the bracket, found {tail.strip()!r}", line)
        if over:
            k = (2 if over[1] == "2" else 1) * int(over[2] or 1)
    terms, at, n = {}, 0, None
    while body[at:].strip() or n is None:
        at, ket, x = term(body, at, line, n is None)
        if n is not None and len(ket) != n:
            raise Fault(f"a ket of {n} qubits was expected, found |{ket}>", line)
        n = qubits_of(ket, line)
        terms[int(ket, 2)] = amplitudes.plus(terms.get(int(ket, 2), ZERO), x)
    if k > 64:
        raise Fault(f"at most sqrt2^64 was expected, found sqrt2^{k}", line)
    return {i: x for i, x in terms.items() if x != ZERO}, k, n


def term(body, at, line, first):
    """One amplitude and ket of a sum: where it ends, the ket's digits, the amplitude."""
    sign = re.compile(r"\s*([-+−])").match(body, at)
    if not sign and not first:
        raise Fault(f"+ or - was expected before {body[at:].strip()[:20]!r}", line)
    at = sign.end() if sign else at
    bracket = re.compile(r"\s*\(([^()|]*)\)").match(body, at)
    if bracket:
        x, at = amplitudes.parsed(bracket[1], line), bracket.end()
    else:
        x, at = amplitudes.product(body, at, line) or (ONE, at)
    ket = KET.match(body, at)
    if not ket:
        raise Fault(f"a ket such as |01> was expected, found {body[at:].strip()[:20]!r}" if body[at:].strip() else "a ket such as |01> was expected, and the line ends", line)
    return ket.end(), ket[1], x if not sign or sign[1] == "+" else amplitudes.turn(x, 4)


def tree(terms, n, line):
    """The root of one state, amplitudes by ket."""
    for x in terms.values():
        if any(abs(v) > MOST for v in x):
            raise Fault(f"coefficients of at most {MOST} in size were expected, found {amplitudes.spelled(x)}", line)
    zero = node((1, ZERO))
    row = {i: node((1, x)) for i, x in terms.items()}
    for _ in range(n):
        row = {i: node((1, row.get(2 * i, zero), row.get(2 * i + 1, zero))) for i in sorted({i >> 1 for i in row})}
        zero = node((1, zero, zero))
    return row.get(0, zero)


def assembled(n, k, roots):
    """The set with these roots: states numbered by first mention, equal nodes once."""
    counts, inner, leaves = [], [], []
    row, base = list(dict.fromkeys(roots)), 0
    for level in range(n + 1):
        counts.append(len(row))
        below, place = [], {}
        for i, state in enumerate(row):
            for mask, *to in state.rows:
                if level == n:
                    leaves.append((base + i, mask, to[0]))
                    continue
                for child in to:
                    if child not in place:
                        place[child] = base + len(row) + len(below)
                        below.append(child)
                inner.append((base + i, mask, place[to[0]], place[to[1]]))
        base, row = base + len(row), below
    return Set(n, k, counts, inner, leaves)


def from_lines(lines, n=None, k=None):
    """The set of all the states of some (number, text) lines; n and k as they were said, or None."""
    made, top = [], k or 0
    for at, text in lines:
        word, _, rest = text.partition(" ")
        if word in ("basis", "ket"):
            if word == "basis" and not re.fullmatch(r"[0-9]{1,2}", rest.strip()):
                raise Fault(f"basis takes a number of qubits, 1 to 20, found {rest.strip()!r}", at)
            if word == "basis" and not 1 <= int(rest) <= 20:
                raise Fault(f"1 to 20 qubits were expected, found {int(rest)}", at)
            kets, size = pattern("x" * int(rest) if word == "basis" else rest.strip(), at)
            made.append((at, kets, 0))
        else:
            kets, own, size = sum_of(text, at)
            made.append((at, kets, own))
            top = max(top, own)
        if n is None:
            n = size
        if size != n:
            raise Fault(f"a state of {n} qubits was expected, found one of {size}", at)
    if k is not None and top > k:
        raise Fault(f"k {k} was said, and a state here needs k {top}", lines[0][0])
    roots = [raised(kets, top - own, n, at) for at, kets, own in made]
    return assembled(n, top, roots)


def raised(kets, times, n, line):
    """A root whose amplitudes are multiplied by √2 so often."""
    if isinstance(kets, dict):
        return tree({i: amplitudes.raised(x, times) for i, x in kets.items()}, n, line)
    one = amplitudes.raised(ONE, times)
    if any(abs(v) > MOST for v in one):
        raise Fault(f"coefficients of at most {MOST} in size were expected, found {amplitudes.spelled(one)}", line)

    seen = {}

    def again(state):
        if state not in seen:
            seen[state] = node(*((m, one if to[0] == ONE else ZERO) if len(to) == 1 else (m, *map(again, to)) for m, *to in state.rows))
        return seen[state]

    return again(kets)
