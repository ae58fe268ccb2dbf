"""Bytes record by record, with offset and meaning: what `zt show --bytes` writes, and docs/FORMAT.md shows."""
from . import circuits, sets
from .showing import parts_of_job, shown_choices

ACROSS = 12


def counted(count, what):
    return f"{count} {what}" + ("" if count == 1 else "s")


def set_rows(b, s):
    """(offset, bytes, meaning) of each record of a set."""
    for number, kind, at, r in sets.records(b):
        if kind == "HD":
            leaves = "1 leaf" if len(s.leaves) == 1 else f"{len(s.leaves)} leaves"
            what = f"version {s.version}, n {s.n}, k {s.k}, zero {s.zero}; {counted(s.total(), 'state')}, {len(s.inner)} inner, {leaves}"
        elif kind == "LV":
            what = f"level {number}: {counted(s.counts[number - 1], 'state')}"
        elif kind == "TR":
            q, m, left, right = s.inner[number - s.n - 2]
            what = f"state {q}, choices {shown_choices(m)}, left {left}, right {right}"
        else:
            q, m, x = s.leaves[number - s.n - 2 - len(s.inner)]
            what = f"state {q}, choices {shown_choices(m)}, a b c d = {' '.join(map(str, x))}"
        yield at, r, f"{kind} {what}"


def job_rows(b, job):
    mark, allow, *parts = job
    yield 0, b[:2], mark.decode()
    yield 2, b[2:6], f"B = {allow}"
    for i, (name, part) in enumerate(zip(("start", "circuit", "end"), parts)):
        yield 6 + 4 * i, b[6 + 4 * i:10 + 4 * i], f"{name} of {counted(len(part), 'byte')}"
    at = 18
    for part in parts:
        yield from ((at + offset, r, what) for offset, r, what in rows_of(part))
        at += len(part)


def rows_of(b):
    job, s = parts_of_job(b), sets.from_bytes(b)
    if job:
        return job_rows(b, job)
    if s is not None:
        return set_rows(b, s)
    if b[:2] == b"GT":
        return [(circuits.SIZE * i, r, circuits.spelled(r)) for i, r in enumerate(circuits.pieces(b))]
    return [(at, b[at:at + ACROSS], "") for at in range(0, len(b), ACROSS)]


def dumped(b):
    out = ""
    for at, r, what in rows_of(b):
        for i in range(0, len(r), ACROSS):
            out += f"{at + i:5}  {' '.join(f'{x:02x}' for x in r[i:i + ACROSS]):{3 * ACROSS}} {what if i == 0 else ''}".rstrip() + "\n"
    return out
