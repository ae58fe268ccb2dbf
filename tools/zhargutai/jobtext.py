"""The text of a job: mark, allow and expect, then start, circuit and end, each with its own lines or the name of a file."""
from . import circuits
from .faults import Fault
from .settext import pack_set, whole
from .showing import MARKS, job_bytes

ALL = (1 << 32) - 1


def first_words(lines):
    for at, line in lines:
        words = line.split("#")[0].split()
        if words:
            yield at, words


class JobText:
    """A job's lines, taken apart; `bytes` is what the program reads."""

    def __init__(self, lines, read):
        self.mark, self.allow, self.expect = b"JB", ALL, None
        self.read, self.parts, self.whole = read, {}, None
        part = None
        for at, line in lines:
            words = line.split("#")[0].split()
            if words[:2] == ["job", "bytes"] and part is None:
                rest = [(i, words) for i, words in first_words(lines) if i > at]
                self.whole = b"".join(circuits.hexed(w, i) for i, w in rest)
                return
            if words and words[0] in ("start", "circuit", "end") and not (part == "circuit" and words[0] != "end"):
                part = self.begin(at, words)
            elif part:
                self.parts[part][2].append((at, line))
            elif words:
                self.head(at, words)
        for name in ("start", "circuit", "end"):
            if name not in self.parts:
                raise Fault(f"a line `{name}` was expected, with its lines below or the name of a file", lines[-1][0])

    def begin(self, at, words):
        expected = ("start", "circuit", "end")[len(self.parts)] if len(self.parts) < 3 else None
        if words[0] != expected:
            raise Fault(f"`{expected}` was expected, found `{words[0]}`" if expected else f"`{words[0]}` was said before", at)
        if len(words) > 2:
            raise Fault(f"`{words[0]}` takes at most the name of one file", at)
        self.parts[words[0]] = (at, words[1] if len(words) == 2 else None, [])
        return words[0]

    def head(self, at, words):
        if words[0] == "mark" and len(words) == 2 and words[1].encode() in MARKS:
            self.mark = words[1].encode()
        elif words[0] == "allow" and len(words) == 2:
            self.allow = whole(words[1], at, "the allowance", ALL)
        elif words[0] == "expect" and len(words) > 1:
            self.expect = " ".join(words[1:])
        else:
            raise Fault(f"mark, allow, expect or start was expected, found {' '.join(words)[:40]!r}", at)

    def bytes(self):
        return self.whole if self.whole is not None else job_bytes(self.mark, self.allow, *(self.part(name) for name in ("start", "circuit", "end")))

    def part(self, name):
        at, file, lines = self.parts[name]
        if file:
            if any(True for _ in first_words(lines)):
                raise Fault(f"`{name} {file}` names a file, so that no lines may follow it", at)
            return self.read(file, "circuit" if name == "circuit" else "set", self.mark == b"JQ" and name == "circuit")
        if name != "circuit":
            return pack_set(lines or [(at, "")])
        if self.mark != b"JQ":
            return circuits.parsed(lines)
        words = list(first_words(lines))
        if words and words[0][1] == ["bytes"]:
            return b"".join(circuits.hexed(w, i) for i, w in words[1:])
        while lines and not lines[-1][1].strip():
            lines = lines[:-1]
        return "".join(line + "\n" for _, line in lines).encode()
