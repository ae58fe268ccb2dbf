"""Text and bytes, both ways, whatever it is: a set, a circuit or a job."""
from . import circuits
from .faults import Fault, text_of
from .jobtext import JobText, first_words
from .settext import pack_set
from .showing import MARKS, show_job, show_set


def kind_of(lines):
    """What a text is: job, circuit or set; None where it has no line."""
    all_words = [words for _, words in first_words(lines)]
    if not all_words:
        return None
    if all_words[0][:2] == ["job", "bytes"] or any(words[0] == "start" for words in all_words):
        return "job"
    first = all_words[0]
    return "circuit" if first[0].upper() in circuits.CODES or first[0].upper() == "GATE" or first[0] == "bytes" and len(first) > 1 else "set"


def is_text(b):
    """No control characters but tab and line ends: so no set, circuit or job in bytes."""
    try:
        text = b.decode("utf-8")
    except UnicodeDecodeError:
        return False
    return b[:2] not in (b"HD", b"GT", *MARKS) and all(c >= " " or c in "\t\n\r" for c in text)


def pack(b, name, kind=None, read=None):
    """(kind, bytes) of a text."""
    lines = [(at, line.rstrip("\r")) for at, line in text_of(b, name)]
    kind = kind or kind_of(lines)
    try:
        if kind == "job":
            return kind, JobText(lines, read).bytes()
        if kind == "circuit":
            return kind, circuits.parsed(lines)
        if kind == "set":
            return kind, pack_set(lines)
    except Fault as fault:
        if fault.name is None:
            fault.name = name
        raise
    raise Fault("a set, a circuit or a job was expected, and the file has no line", name=name)


def show(b, kind=None):
    """(kind, text) of bytes."""
    if kind is None:
        kind = "circuit" if b[:2] == b"GT" else "job" if b[:2] in MARKS else "set"
    return kind, {"set": show_set, "circuit": circuits.shown, "job": show_job}[kind](b)
