"""Circuits, one gate a line: `H 1`, `CX 1 2` with the control first. A gate that the program would refuse has a line too, `gate` or `bytes`."""
import re

from .faults import Fault

SIZE = 6
NAMES = {1: "X", 2: "Y", 3: "Z", 4: "H", 5: "S", 6: "SDG", 7: "T", 8: "TDG", 9: "CX", 10: "CZ", 11: "SWAP", 12: "CCX"}
CODES = {name: code for code, name in NAMES.items()} | {"S†": 6, "T†": 8, "CNOT": 9, "TOFFOLI": 12}
QUBITS = {code: 1 if code <= 8 else 3 if code == 12 else 2 for code in NAMES}


def record(code, target, control=0, last=0):
    return bytes([71, 84, code, target, control, last])


def pieces(b):
    """The records, the last one shorter where the length is no multiple of 6."""
    return [b[i:i + SIZE] for i in range(0, len(b), SIZE)]


def gate_of(r):
    """(code, target, control, last) of a record; None where it is none."""
    return tuple(r[2:]) if len(r) == SIZE and r[:2] == b"GT" else None


def gates(b):
    return [g for g in map(gate_of, pieces(b)) if g]


def known(gate, n):
    """Whether a gate stands as it should, on n qubits."""
    if gate[0] not in NAMES:
        return False
    qubits, rest = gate[1:1 + QUBITS[gate[0]]], gate[1 + QUBITS[gate[0]]:]
    return all(1 <= q <= n for q in qubits) and len(set(qubits)) == len(qubits) and not any(rest)


def spelled(r):
    """The line of one record."""
    g = gate_of(r)
    if g is None:
        return "bytes " + " ".join(f"{x:02x}" for x in r)
    code, target, control, last = g
    qubits = QUBITS.get(code)
    if qubits == 1 and control == last == 0:
        return f"{NAMES[code]} {target}"
    if qubits == 2 and last == 0:
        return f"{NAMES[code]} {control} {target}"
    if qubits == 3:
        return f"{NAMES[code]} {control} {last} {target}"
    return f"gate {code} {target} {control} {last}"


def shown(b):
    return "".join(spelled(r) + "\n" for r in pieces(b))


def number(word, line, what):
    if not re.fullmatch(r"[0-9]{1,3}", word) or int(word) > 255:
        raise Fault(f"{what} was expected, a number of at most 255, found {word!r}", line)
    return int(word)


def hexed(words, line):
    if not all(re.fullmatch(r"[0-9a-fA-F]{2}", w) for w in words):
        raise Fault("bytes were expected, two hex digits each with spaces between", line)
    return bytes(int(w, 16) for w in words)


def gate_line(words, line):
    """The record of a line of words."""
    name, rest = words[0].upper(), words[1:]
    if name == "BYTES":
        return hexed(rest, line)
    if name == "GATE":
        if len(rest) != 4:
            raise Fault("gate takes code, target, control and the last byte", line)
        return record(*(number(w, line, "a byte of the gate") for w in rest))
    if name not in CODES:
        raise Fault(f"a gate was expected, one of {', '.join(NAMES.values())}, found {words[0]!r}", line)
    code = CODES[name]
    if len(rest) != QUBITS[code]:
        takes = {1: "one qubit", 2: "control and target", 3: "two controls and the target"}[QUBITS[code]]
        raise Fault(f"{NAMES[code]} takes {takes}, found {len(rest)} of them", line)
    qubits = [number(w, line, "a qubit") for w in rest]
    if QUBITS[code] == 1:
        return record(code, qubits[0])
    return record(code, qubits[-1], qubits[0], qubits[1] if QUBITS[code] == 3 else 0)


def parsed(lines):
    """The bytes of a circuit from its (number, line) pairs."""
    out = b""
    for at, line in lines:
        words = line.split("#")[0].replace(",", " ").split()
        if words:
            out += gate_line(words, at)
    return out
