"""From bytes to text: what `zt show` writes of a set, a circuit and a job, so that nothing is lost."""
import struct

from . import amplitudes, circuits, sets

MARKS = (b"JB", b"JP", b"JQ")


def shown_choices(mask):
    """{0,2-4}"""
    parts, cs = [], sets.choices(mask)
    while cs:
        run = 1
        while run < len(cs) and cs[run] == cs[0] + run:
            run += 1
        parts.append(str(cs[0]) if run == 1 else f"{cs[0]},{cs[1]}" if run == 2 else f"{cs[0]}-{cs[run - 1]}")
        cs = cs[run:]
    return "{" + ",".join(parts) + "}"


def hex_lines(b):
    return "".join(" ".join(f"{x:02x}" for x in b[i:i + 16]) + "\n" for i in range(0, len(b), 16))


def in_order(rows):
    return sorted(rows, key=lambda r: (r[0], sets.least(r[1])))


def show_set(b):
    """Bytes that are no records of a set are shown as bytes."""
    s = sets.from_bytes(b)
    if s is None:
        return "bytes\n" + hex_lines(b)
    out = [f"qubits {s.n}", f"k {s.k}"]
    for word, value, usual in (("version", s.version, 1), ("zero", s.zero, 0), ("states", s.states, -1)):
        if value != usual:
            out.append(f"{word} {value}")
    if s.inner != in_order(s.inner) or s.leaves != in_order(s.leaves):
        out.append("as written")
    firsts = sets.first_states(s)
    for level, count in enumerate(s.counts, 1):
        first = firsts[level - 1]
        names = "" if count == 0 else f" q{first}" if count == 1 else f" q{first}..q{first + count - 1}"
        out.append(f"level {level}:{names}")

    def name(q):
        return f"q{q}" if q < firsts[-1] else f"@{q}"

    out += [f"{name(q)} {shown_choices(m)} -> {name(left)} {name(right)}" for q, m, left, right in s.inner]
    out += [f"{name(q)} {shown_choices(m)} = {amplitudes.spelled(x)}" for q, m, x in s.leaves]
    return "\n".join(out) + "\n"


def parts_of_job(b):
    """(mark, B, start, circuit, end); None where the bytes are no job."""
    if len(b) < 18 or b[:2] not in MARKS:
        return None
    allow, *lengths = struct.unpack("<4I", b[2:18])
    if len(b) != 18 + sum(lengths):
        return None
    parts, at = [], 18
    for length in lengths:
        parts.append(b[at:at + length])
        at += length
    return b[:2], allow, *parts


def job_bytes(mark, allow, start, circuit, end):
    return mark + struct.pack("<4I", allow, len(start), len(circuit), len(end)) + start + circuit + end


def show_verbatim(b):
    """The circuit of a job whose circuit is text, as it is; as bytes where lines could not be told from those of the job."""
    try:
        text = b.decode("ascii")
    except UnicodeDecodeError:
        text = ""
    plain = text.endswith("\n") and not any(line.split("#")[0].split()[:1] in (["end"], ["bytes"]) for line in text.split("\n")) and "\r" not in text
    return text if plain else "bytes\n" + hex_lines(b)


def show_job(b, expect=None):
    job = parts_of_job(b)
    if job is None:
        return "job bytes\n" + hex_lines(b)
    mark, allow, start, circuit, end = job
    out = (f"mark {mark.decode()}\n" if mark != b"JB" else "") + f"allow {allow}\n" + (f"expect {expect}\n" if expect else "")
    middle = show_verbatim(circuit) if mark == b"JQ" else circuits.shown(circuit)
    return f"{out}\nstart\n{show_set(start)}\ncircuit\n{middle}\nend\n{show_set(end)}"
