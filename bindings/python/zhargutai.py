"""The checker's C library from Python, by ctypes: `check` and `one_gate` on bytes, `closing` and `spell` on numbers of Clifford elements.

The library is the file of the variable ZHARGUTAI_LIBRARY, target/c/libzhargutai.so of this repository (`make`), or the one that is installed.
A call needs about 1 MB of stack: threads other than the main one want `threading.stack_size(2 << 20)` before they start.
"""
import ctypes
import os
import pathlib
from typing import NamedTuple, Tuple

REPLY_SIZE = 64
OUTPUT_SIZE = 49248
SPELL_SIZE = 6
KINDS = ("refused", "made", "holds", "fails", "undecided")


class Reply(NamedTuple):
    """What a call answered: docs/REPLY.md has the fields."""
    kind: str
    number: int
    source: int
    place: int
    count: int
    root: int
    word: Tuple[int, ...]


class Refused(ValueError):
    """A refusal, with its reply."""

    def __init__(self, reply):
        super().__init__(f"refused {reply.number} {reply.source} {reply.place}")
        self.reply = reply


def _load():
    built = pathlib.Path(__file__).resolve().parents[2] / "target" / "c" / "libzhargutai.so"
    name = os.environ.get("ZHARGUTAI_LIBRARY") or (str(built) if built.exists() else "libzhargutai.so.1")
    library = ctypes.CDLL(name)
    buffer = [ctypes.c_char_p, ctypes.c_size_t]
    library.zhargutai_check.argtypes = buffer * 3 + [ctypes.c_uint32] + buffer
    library.zhargutai_one_gate.argtypes = buffer * 4
    library.zhargutai_closing.argtypes = buffer * 2
    library.zhargutai_spell.argtypes = [ctypes.c_uint32] + buffer * 2
    for name in ("check", "one_gate", "closing", "spell"):
        getattr(library, f"zhargutai_{name}").restype = ctypes.c_uint32
    return library


_library = _load()


def _lent(size):
    return ctypes.create_string_buffer(size)


def _read(reply):
    b = reply.raw
    place, count, root = (int.from_bytes(b[i:i + 4], "little") for i in (4, 8, 12))
    return Reply(KINDS[b[0]], b[1], b[2], place, count, root, tuple(b[16:37]))


def check(start, circuit, end, allowance=0xFFFFFFFF):
    """The reply for three files as bytes; its kind is holds, fails, undecided or refused. The word of a failure has n + 1 choices."""
    reply = _lent(REPLY_SIZE)
    parts = [x for part in (start, circuit, end) for x in (bytes(part), len(part))]
    _library.zhargutai_check(*parts, allowance, reply, REPLY_SIZE)
    told = _read(reply)
    return told._replace(word=told.word[:start[3] + 1] if told.kind == "fails" else ())


def one_gate(set_file, gate):
    """The set file that one gate of 6 bytes makes of a set file. Raises Refused."""
    reply, output = _lent(REPLY_SIZE), _lent(OUTPUT_SIZE)
    _library.zhargutai_one_gate(bytes(set_file), len(set_file), bytes(gate), len(gate), output, OUTPUT_SIZE, reply, REPLY_SIZE)
    return output.raw[:_made(reply).count]


def closing(sequence):
    """The Clifford element, 0 to 23, that brings a sequence of them (numbers, the first played first) to the identity. Raises Refused."""
    reply = _lent(REPLY_SIZE)
    _library.zhargutai_closing(bytes(sequence), len(sequence), reply, REPLY_SIZE)
    return _made(reply).count


def spell(element):
    """A Clifford element as gates of H and S, such as "HSSH", the first played first. Raises Refused."""
    reply, output = _lent(REPLY_SIZE), _lent(SPELL_SIZE)
    _library.zhargutai_spell(element, output, SPELL_SIZE, reply, REPLY_SIZE)
    return "".join({4: "H", 5: "S"}[code] for code in output.raw[:_made(reply).count])


def _made(reply):
    told = _read(reply)
    if told.kind == "refused":
        raise Refused(told)
    return told
