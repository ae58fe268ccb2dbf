"""Exact amplitudes (docs/RULES.md, A1 to A7): four whole numbers (a, b, c, d) at a k, read from and written as `2 - w + i`."""
import re

from .faults import Fault

ZERO = (0, 0, 0, 0)
ONE = (1, 0, 0, 0)
MOST = 1 << 30
UNITS = ("", "w", "i", "w^3")


def turn(x, j=1):
    """Times ω^j."""
    for _ in range(j % 8):
        x = (-x[3], x[0], x[1], x[2])
    return x


def raised(x, times):
    """Times √2, so often."""
    x = tuple(v << times // 2 for v in x)
    if times % 2:
        a, b, c, d = x
        x = (b - d, a + c, b + d, c - a)
    return x


def plus(x, y):
    return tuple(p + q for p, q in zip(x, y))


def minus(x, y):
    return tuple(p - q for p, q in zip(x, y))


def times(x, y):
    """The product, of the four numbers alone."""
    total = ZERO
    for j, v in enumerate(y):
        total = plus(total, tuple(v * u for u in turn(x, j)))
    return total


def least(x, k):
    """The same value with the least k: what √2 divides is divided."""
    if x == ZERO:
        return ZERO, 0
    while k > 0 and (x[0] + x[2]) % 2 == 0 and (x[1] + x[3]) % 2 == 0:
        x, k = tuple(v // 2 for v in raised(x, 1)), k - 1
    return x, k


def at_same(x, k, y, l):
    """Both as numbers at the greater k."""
    top = max(k, l)
    return raised(x, top - k), raised(y, top - l), top


def same(x, k, y, l):
    x, y, _ = at_same(x, k, y, l)
    return x == y


def spelled(x):
    """a + b w + c i + d w^3, zero terms left out."""
    out = ""
    for value, unit in zip(x, UNITS):
        if value == 0:
            continue
        size = abs(value)
        term = unit if size == 1 and unit else f"{size}{unit}"
        out += (f" {'-' if value < 0 else '+'} " if out else "-" if value < 0 else "") + term
    return out or "0"


def over(k):
    """The divisor √2^k as it is written after a sum."""
    return "" if k == 0 else "/sqrt2" if k == 1 else "/2" if k == 2 else f"/sqrt2^{k}"


def value(x, k):
    """An amplitude with its k, for people."""
    x, k = least(x, k)
    text = spelled(x)
    if k and sum(v != 0 for v in x) > 1:
        text = f"({text})"
    return text + over(k)


TOKEN = re.compile(r"\s*(?:(?P<number>[0-9]+)|(?P<unit>w|ω|i)|(?P<sign>[-+−])|(?P<other>\S))")
POWER = re.compile(r"\s*\^\s*([0-9]+)")


def product(text, at, line):
    """Numbers and units side by side from `at` on, as `3w^2` or `2 i`: its value and where it ends; None where there is none."""
    x, begun = ONE, False
    while True:
        token = TOKEN.match(text, at)
        if token and token["other"] == "*" and begun:
            at = token.end()
            token = TOKEN.match(text, at)
            if not token or not (token["number"] or token["unit"]):
                raise Fault("after * a whole number, w or i was expected", line)
        if not token or not (token["number"] or token["unit"]):
            return (x, at) if begun else None
        at, begun = token.end(), True
        if token["number"]:
            if len(token["number"]) > 12:
                raise Fault(f"the number {token['number'][:12]}.. has more digits than any coefficient", line)
            x = tuple(int(token["number"]) * v for v in x)
            continue
        power = POWER.match(text, at)
        if power:
            at = power.end()
        x = turn(x, (2 if token["unit"] == "i" else 1) * (int(power[1][-6:]) % 8 if power else 1))


def summed(text, line, at=0):
    """A sum of products from `at` on: its value and where it ends."""
    total, first = ZERO, True
    while True:
        token = TOKEN.match(text, at)
        sign = token["sign"] if token else None
        if not first and not sign:
            return total, at
        after = token.end() if sign else at
        found = product(text, after, line)
        if found is None:
            what = text[after:].strip()[:20]
            raise Fault(f"an amplitude such as 1, -1, i, w^3 or 2 - w was expected, found {what!r}" if what else "an amplitude such as 1, -1, i, w^3 or 2 - w was expected, and the line ends", line)
        x, at = found
        total, first = (plus if sign in (None, "+") else minus)(total, x), False


def parsed(text, line):
    """An amplitude that is the whole text."""
    x, at = summed(text, line)
    if text[at:].strip():
        raise Fault(f"an amplitude such as 2 - w ends before {text[at:].strip()[:20]!r}", line)
    return x
