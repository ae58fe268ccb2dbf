"""The text of a set: kets, or levels and transitions (docs/TUTORIAL.md, "The text form")."""
import re

from . import amplitudes, circuits, kets, sets
from .faults import Fault
from .sets import Set
from .showing import in_order

NAME = re.compile(r"[A-Za-z_][A-Za-z0-9_']*|@[0-9]{1,5}")
RANGE = re.compile(r"([A-Za-z_][A-Za-z0-9_']*?)([0-9]{1,7})\.\.([A-Za-z_][A-Za-z0-9_']*?)([0-9]{1,7})")
EXPECTED = "a line of a set was expected: qubits, k, level, a transition with -> or =, basis, ket, all of or a sum of kets"


def whole(word, line, what, most):
    if not re.fullmatch("[0-9]{1,10}", word) or int(word) > most:
        raise Fault(f"{what} was expected, a number of at most {most}, found {word!r}", line)
    return int(word)


def parsed_choices(text, line):
    mask = 0
    for part in text.split(","):
        part = part.strip()
        if not part and not text.strip():
            continue
        ends = re.fullmatch(r"([0-9]{1,2})(?:\s*-\s*([0-9]{1,2}))?", part)
        if not ends or int(ends[2] or ends[1]) > 31 or int(ends[2] or ends[1]) < int(ends[1]):
            raise Fault(f"choices such as {{0,2-4}} were expected, each 0 to 31, found {{{text}}}", line)
        for c in range(int(ends[1]), int(ends[2] or ends[1]) + 1):
            mask |= 1 << c
    return mask


class SetText:
    """The lines of one set, gathered; `made` gives the set's bytes."""

    def __init__(self, lines):
        self.lines = [(at, line.split("#")[0].strip()) for at, line in lines]
        self.lines = [(at, line) for at, line in self.lines if line]
        self.fields, self.levels, self.states = {}, [], {}
        self.as_written, self.rows, self.short, self.many = False, [], [], False

    def made(self, at_end):
        if not self.lines:
            raise Fault("a set was expected, and there is none", at_end)
        if self.lines[0][1] == "bytes":
            return b"".join(circuits.hexed(line.split(), at) for at, line in self.lines[1:])
        for at, line in self.lines:
            self.take(at, line)
        if self.short:
            return sets.to_bytes(self.from_kets())
        return sets.to_bytes(self.from_records())

    def take(self, at, line):
        words = line.split()
        if "->" in line or "=" in line:
            self.rows.append((at, line))
        elif words[0] == "level":
            self.level(at, line)
        elif words[0] in ("qubits", "k", "version", "zero", "states"):
            if len(words) != 2:
                raise Fault(f"{words[0]} takes one number", at)
            if words[0] in self.fields:
                raise Fault(f"{words[0]} was said before", at)
            self.fields[words[0]] = whole(words[1], at, words[0], 65535 if words[0] == "states" else 255)
        elif words == ["as", "written"]:
            self.as_written = True
        elif words == ["all", "of"]:
            self.many = True
        elif words[0] in ("basis", "ket") or "|" in line:
            if self.short and not self.many:
                raise Fault(f"more than one state needs a line `all of` before line {self.short[0][0]}", at)
            self.short.append((at, line))
        else:
            raise Fault(f"{EXPECTED}; found {line[:40]!r}", at)

    def level(self, at, line):
        head = re.fullmatch(r"level\s+([0-9]{1,3})\s*:\s*(.*)", line)
        if not head:
            raise Fault(f"`level 1: names of its states` was expected, found {line[:40]!r}", at)
        if int(head[1]) != len(self.levels) + 1:
            raise Fault(f"level {len(self.levels) + 1} was expected, found level {head[1]}", at)
        count = 0
        for word in head[2].replace(",", " ").split():
            ends = RANGE.fullmatch(word)
            if ends:
                if ends[1] != ends[3] or int(ends[4]) < int(ends[2]) or int(ends[4]) - int(ends[2]) > 65535:
                    raise Fault(f"a range such as q1..q5 was expected, found {word!r}", at)
                names = [f"{ends[1]}{i}" for i in range(int(ends[2]), int(ends[4]) + 1)]
            elif NAME.fullmatch(word) and word[0] != "@":
                names = [word]
            else:
                raise Fault(f"a state's name, a letter and then letters or digits, was expected, found {word!r}", at)
            for name in names:
                if name in self.states:
                    raise Fault(f"the state {name} was named before", at)
                self.states[name] = len(self.states)
            count += len(names)
        if count > 65535:
            raise Fault(f"at most 65,535 states were expected on a level, found {count}", at)
        self.levels.append((at, count))

    def state(self, word, at):
        if word[:1] == "@" and NAME.fullmatch(word):
            if int(word[1:]) > 65535:
                raise Fault(f"a state's number is at most 65,535, found {word}", at)
            return int(word[1:])
        if word not in self.states:
            raise Fault(f"the state {word!r} is on no level: a `level` line must name it", at)
        if self.states[word] > 65535:
            raise Fault(f"the state {word!r} is number {self.states[word]}, and a record has room for 65,535", at)
        return self.states[word]

    def row(self, at, line):
        """(kind, record) of a transition."""
        parts = re.fullmatch(r"(\S+?)\s*\{([^{}]*)\}\s*(->|=)\s*(.*)", line)
        if not parts:
            raise Fault(f"`state {{choices}} -> left right` or `state {{choices}} = amplitude` was expected, found {line[:40]!r}", at)
        q, mask = self.state(parts[1], at), parsed_choices(parts[2], at)
        if parts[3] == "->":
            to = parts[4].replace(",", " ").split()
            if len(to) != 2:
                raise Fault(f"a left and a right state were expected after ->, found {len(to)}", at)
            return "TR", (q, mask, *(self.state(w, at) for w in to))
        x = amplitudes.parsed(parts[4], at)
        if any(not -(1 << 31) <= v < 1 << 31 for v in x):
            raise Fault("a coefficient has more than 32 bits", at)
        return "LF", (q, mask, x)

    def from_records(self):
        last = self.lines[-1][0]
        for word in ("qubits", "k"):
            if word not in self.fields:
                raise Fault(f"a line `{word}` with a number was expected", last)
        n = self.fields["qubits"]
        if len(self.levels) != n + 1:
            raise Fault(f"{n} qubits have {n + 1} `level` lines, found {len(self.levels)}", last)
        rows = {"TR": [], "LF": []}
        for at, line in self.rows:
            kind, row = self.row(at, line)
            rows[kind].append(row)
        counts = [count for _, count in self.levels]
        if any(len(r) > 65535 for r in rows.values()) or sum(counts) > 65535 and "states" not in self.fields:
            raise Fault("a set file has room for 65,535 states and as many transitions of each kind", last)
        inner, leaves = (r if self.as_written else in_order(r) for r in rows.values())
        return Set(n, self.fields["k"], counts, inner, leaves, self.fields.get("version", 1), self.fields.get("zero", 0), self.fields.get("states", -1))

    def from_kets(self):
        for at, _ in self.levels[:1] + self.rows[:1]:
            raise Fault(f"states as kets (line {self.short[0][0]}) and transitions cannot stand in one set", at)
        if set(self.fields) - {"qubits", "k"} or self.as_written:
            raise Fault("version, zero, states and `as written` belong to a set of transitions, and this one has kets", self.short[0][0])
        s = kets.from_lines(self.short, self.fields.get("qubits"), self.fields.get("k"))
        if max(sum(s.counts), len(s.inner), len(s.leaves)) > 65535:
            raise Fault("a set file has room for 65,535 states and as many transitions of each kind", self.short[0][0])
        return s


def pack_set(lines):
    return SetText(lines).made(lines[-1][0] if lines else 1)
