"""Writes the data files of crates/vectors and crates/mutations, and the lines that the programs must print, computed by sets.py.

usage: vectors.py DIR     writes DIR/vectors/{args,stdout,data/..} and DIR/mutations/{stdout,data/..}
"""
import pathlib
import re
import struct
import sys

from sets import B2, BOUNDS, E2, END_BOUNDS, Set, Z1, file_of, gt, read_circuit, read_set


def spoil(b, at, new):
    return b[:at] + new + b[at + len(new):]


def u16(x):
    return struct.pack("<H", x)


def u32(x):
    return struct.pack("<I", x)


def i32(x):
    return struct.pack("<i", x)


z1, b2, e2 = file_of(Z1), file_of(B2), file_of(E2)
# Where the records begin. Z1: HD 0, LV 12 16, TR 20, LF 32 56. B2: HD 0, LV 12 16 20, TR 24 36 48 60 72, LF 84 108.
# Their numbers. Z1: LV 1 2, TR 3, LF 4 5. B2: LV 1 2 3, TR 4 to 8, LF 9 10. E: LV 1 2 3, TR 4 to 11, LF 12 13 14.
levels = Set(1, 0, (1, 1023), (), ())


def chain(states):
    """An end set of so many states: one root and the rest leaf states."""
    return Set(1, 0, (1, states - 1), ((0, 1, 1, 1),), ((1, 1, (1, 0, 0, 0)),))


def wide(n_inner, n_leaves):
    """A set with so many TR and LF records: single choices of states in turn."""
    inner = tuple((i // 32, 1 << (i % 32), 64, 64) for i in range(n_inner))
    leaves = tuple((64 + i // 32, 1 << (i % 32), (i, 0, 0, -i)) for i in range(n_leaves))
    return Set(1, 64, (64, 64), inner, leaves)


def faulty(i, *numbers, b=b2):
    """TR record i of B2 with these of the faults 81 to 84: a leaf's state, the root as a child, no choice."""
    at = 24 + 12 * i
    for number in numbers:
        where, new = {81: (2, u16(4)), 82: (8, u16(0)), 83: (10, u16(0)), 84: (4, u32(0))}[number]
        b = spoil(b, at + where, new)
    return b


# four qubits: LV 1 to 5, TR 6 to 11 from byte 32 on, LF 12 13 14 from byte 104 on
ONE = (1, 0, 0, 0)
deep = Set(4, 0, (1, 1, 1, 1, 2), ((0, 1, 1, 1), (0, 2, 1, 1), (1, 1, 2, 2), (2, 1, 3, 3), (3, 1, 4, 5), (3, 2, 5, 4)), ((4, 1, ONE), (4, 2, ONE), (5, 3, ONE)))

cases = {
    # ---- good files
    "set-z1": z1, "set-b2": b2, "set-e": e2,
    "set-n20-k64": file_of(Set(20, 64, (1,) + (0,) * 20, (), ())),
    "set-1024-states": file_of(levels), "end-128-states": file_of(chain(128)), "set-129-states": file_of(chain(129)),
    "set-2048-inner-1024-leaves": file_of(wide(2048, 1024)),
    "set-coefficients-at-their-ends": spoil(spoil(z1, 40, i32(1073741824)), 44, i32(-1073741824)),
    "set-masks-1-and-2": spoil(b2, 28, u32(1)), "set-unreached-state": file_of(Set(1, 0, (1, 2), ((0, 1, 1, 1),), ((1, 1, (1, 0, 0, 0)), (2, 1, (0, 0, 0, 0))))),
    # ---- 1
    "set-1-empty": b"", "set-1-eleven-bytes": z1[:11], "set-1-no-hd": spoil(z1, 0, b"HE"), "set-1-lv-first": b"LV" + z1[2:],
    # ---- 2
    "set-2-version-0": spoil(z1, 2, b"\0"), "set-2-version-2": spoil(z1, 2, b"\2"), "set-2-twelve-bytes-of-another-version": b"HD\2" + bytes(9),
    # ---- 3
    "set-3-n-0": spoil(z1, 3, b"\0"), "set-3-n-21": spoil(z1, 3, b"\x15"), "set-3-k-65": spoil(z1, 4, b"\x41"), "set-3-zero-byte": spoil(z1, 5, b"\1"),
    # ---- 4
    "set-4-1025-states": spoil(z1, 6, u16(1025)), "set-4-2049-inner": spoil(z1, 8, u16(2049)), "set-4-1025-leaves": spoil(z1, 10, u16(1025)),
    "end-4-129-states": file_of(chain(129)),
    # ---- 5
    "set-5-cut": z1[:79], "set-5-extra-byte": z1 + b"\0", "set-5-one-inner-more": spoil(z1, 8, u16(2)),
    # ---- 6: names that say a place are held to it
    "set-6-at-2-an-lv": spoil(b2, 16, b"TR"), "set-6-at-6-a-tr": spoil(b2, 48, b"TX"), "set-6-at-10-an-lf": spoil(b2, 108, b"TR"), "set-6-at-1-of-three": spoil(spoil(spoil(b2, 12, b"LF"), 72, b"LV"), 84, b"XX"),
    "set-6-lv": spoil(z1, 16, b"LX"), "set-6-tr": spoil(z1, 20, b"LF"), "set-6-lf-last": spoil(z1, 56, b"TR"),
    # ---- 7
    "set-7-level-1-empty": spoil(spoil(z1, 14, u16(0)), 18, u16(3)), "set-7-sum": spoil(z1, 18, u16(3)), "set-7-no-states": file_of(Set(1, 0, (0, 0), (), ())),
    "set-7-sum-past-65535": spoil(spoil(b2, 18, u16(32768)), 22, u16(32772)),
    # ---- 81 to 84
    "set-81-state-on-leaf-level": spoil(z1, 22, u16(1)), "set-81-state-on-no-level": spoil(z1, 22, u16(3)), "set-82-left-on-its-own-level": spoil(z1, 28, u16(0)),
    "set-83-right-on-no-level": spoil(z1, 30, u16(65535)), "set-84-mask-zero": spoil(z1, 24, u32(0)), "set-82-child-two-levels-down": spoil(b2, 32, u16(3)),
    **{f"set-{number}-at-{4 + i}": faulty(i, number) for number in (81, 82, 83, 84) for i in (0, 2, 4)},
    "set-84-at-4-before-81-at-7": faulty(3, 81, b=faulty(0, 84)), "set-83-at-5-before-82-at-6": faulty(2, 82, b=faulty(1, 83)), "set-81-at-6-all-four": faulty(2, 81, 82, 83, 84),
    "set-82-at-6-and-83-and-84": faulty(2, 82, 83, 84), "set-83-at-6-and-84": faulty(2, 83, 84), "set-81-at-302": spoil(file_of(wide(300, 40)), 20 + 12 * 299 + 2, u16(64)),
    # ---- 9
    "set-9-state-not-a-leaf-s": spoil(z1, 34, u16(0)), "set-9-mask-zero": spoil(z1, 36, u32(0)), "set-9-coefficient": spoil(z1, 52, i32(1073741825)),
    "set-9-coefficient-below": spoil(z1, 64, i32(-1073741825)), "set-9-least-number": spoil(z1, 64, i32(-2147483648)),
    "set-9-at-10": spoil(b2, 112, u32(0)), "set-9-at-13-of-two": spoil(spoil(e2, 170, u16(0)), 148, u32(0)), "set-9-at-13-of-four-levels": spoil(file_of(deep), 104 + 24 + 20, i32((1 << 30) + 1)),
    "set-9-at-342": spoil(file_of(wide(300, 40)), 20 + 12 * 300 + 24 * 39 + 4, u32(0)),
    # ---- 10
    "set-10-at-5-of-three": file_of(Set(1, 0, (1, 1), ((0, 1 | 8, 1, 1), (0, 2, 1, 1), (0, 4 | 8, 1, 1)), ())),
    "set-10-at-6-leaves-of-three": file_of(Set(1, 0, (1, 1), ((0, 1, 1, 1),), ((1, 1 | 8, ONE), (1, 2, ONE), (1, 4 | 8, ONE)))),
    "set-10-at-11-of-four-levels": spoil(file_of(deep), 32 + 12 * 5 + 4, u32(3)), "set-10-at-13-of-four-levels": spoil(file_of(deep), 104 + 24 + 4, u32(1)),
    "set-10-at-5-before-10-at-10": spoil(spoil(spoil(b2, 40, u32(1)), 86, u16(4)), 110, u16(3)),
    "set-10-masks-1-and-3": spoil(b2, 40, u32(3)), "set-10-same-state-same-mask": spoil(b2, 40, u32(1)), "set-10-states-fall": spoil(spoil(b2, 50, u16(2)), 62, u16(1)),
    "set-10-least-choice-falls": spoil(spoil(b2, 28, u32(2)), 40, u32(1)), "set-10-leaves-out-of-order": spoil(spoil(z1, 34, u16(2)), 58, u16(1)),
    # ---- two faults: the smaller number wins over the whole file
    "set-6-before-84": spoil(spoil(z1, 24, u32(0)), 56, b"TR"), "set-6-before-7": spoil(spoil(z1, 18, u16(3)), 56, b"TR"),
    "set-7-before-84": spoil(spoil(z1, 24, u32(0)), 18, u16(3)), "set-84-before-9": spoil(spoil(b2, 76, u32(0)), 86, u16(0)),
    "set-84-before-10": spoil(spoil(b2, 40, u32(1)), 76, u32(0)), "set-9-before-10": spoil(spoil(b2, 40, u32(1)), 112, u32(0)),
    "set-4-before-5": spoil(z1, 6, u16(1025)) + b"\0", "set-3-before-4": spoil(spoil(z1, 3, b"\0"), 6, u16(1025)), "set-2-before-3": spoil(spoil(z1, 2, b"\7"), 3, b"\0"),
    "set-1-before-2": spoil(z1[:11], 2, b"\7"), "set-5-before-6": spoil(z1, 56, b"TR") + b"\0",
    # ---- circuits, held to the qubits that their name says
    "gates-2-empty": b"", "gates-2-bell": gt(4, 1) + gt(9, 2, 1), "gates-2-all-codes": b"".join(gt(c, 1) for c in range(1, 9)) + gt(9, 1, 2) + gt(10, 1, 2) + gt(10, 2, 1),
    "gates-1-4096": gt(7, 1) * 4096, "gates-2-11-cut": gt(4, 1)[:5], "gates-2-11-extra-byte": gt(4, 1) + b"\0", "gates-1-11-4097": gt(7, 1) * 4097,
    "gates-2-11-before-12": gt(0, 1) + b"G", "gates-2-12-mark": gt(4, 1) + b"GX" + gt(4, 1)[2:], "gates-2-12-code-0": gt(0, 1), "gates-2-12-code-11": gt(4, 1) * 3 + gt(11, 1),
    "gates-2-12-target-0": gt(4, 0), "gates-2-12-target-3": gt(4, 3), "gates-2-12-control-of-h": gt(4, 1, 2), "gates-2-12-control-0": gt(9, 1), "gates-2-12-control-3": gt(9, 1, 3),
    "gates-2-12-control-is-target": gt(4, 1) + gt(10, 2, 2), "gates-1-12-cx": gt(9, 1, 1), "gates-2-12-zero-byte": gt(4, 1)[:5] + b"\1", "gates-2-12-first-of-two": gt(4, 1) + gt(4, 3) + gt(0, 1),
    "one-2-h": gt(4, 1), "one-2-11-empty": b"", "one-2-11-twelve-bytes": gt(4, 1) * 2, "one-2-12-target": gt(4, 3),
}


def answer(name, b):
    kind, rest = name.split("-", 1)
    if kind in ("set", "end"):
        got = read_set(b, END_BOUNDS if kind == "end" else BOUNDS)
        if isinstance(got, tuple):
            return f"refused {got[0]} {3 if kind == 'end' else 1} {got[1]}"
        return f"set {got.n} {got.k} {sum(got.counts)} {len(got.inner)} {len(got.leaves)}"
    got = read_circuit(b, int(rest[0]), kind == "one")
    if isinstance(got, tuple):
        return f"refused {got[0]} 2 {got[1]}"
    return f"gates {len(got)}"


def told(name):
    """The number and the place that a name says, as set-6-at-2-..; the place is None where it says none."""
    found = re.match(r"(?:set|end)-(\d+)(?:-at-(\d+))?-?", name)
    return found and (int(found[1]), found[2] and int(found[2]))


def number_and_place(b):
    got = read_set(b)
    return "0@0" if isinstance(got, Set) else f"{got[0]}@{got[1]}"


def mutations(b):
    yield " ".join(number_and_place(b[:i]) for i in range(len(b) + 1))
    for bit in range(8):
        yield " ".join(number_and_place(spoil(b, i, bytes([b[i] ^ 1 << bit]))) for i in range(len(b)))


def write(path, content):
    path.parent.mkdir(parents=True, exist_ok=True)
    path.write_bytes(content)


def main(top):
    top = pathlib.Path(top)
    for name, b in cases.items():
        number, place = told(name) or (None, None)
        assert place is None or answer(name, b).split()[1::2] == [str(number), str(place)], name
        write(top / "vectors/data" / name, b)
    write(top / "vectors/args", "".join(f"{name}\n" for name in cases).encode())
    write(top / "vectors/stdout", "".join(f"{name}: {answer(name, b)}\n" for name, b in cases.items()).encode())
    lines = []
    for name, b in (("z1", z1), ("b2", b2), ("e", e2)):
        write(top / "mutations/data" / name, b)
        lines += [name, *mutations(b)]
    write(top / "mutations/args", b"z1\nb2\ne\n")
    write(top / "mutations/stdout", "".join(f"{l}\n" for l in lines).encode())


if __name__ == "__main__":
    main(sys.argv[1])
