"""What is wrong with a text, a file or a call, as one message: where it stands, and what was expected."""


class Fault(Exception):
    """A message for the person who wrote the text; zt prints it and ends, with no traceback."""

    def __init__(self, message, line=None, name=None):
        super().__init__(message)
        self.message, self.line, self.name = message, line, name

    def __str__(self):
        where = [str(x) for x in (self.name, self.line) if x is not None]
        return ":".join(where) + ": " + self.message if where else self.message


class Unread(Fault):
    """A file that cannot be read or written, or a program that cannot be run."""


def read_file(path):
    """The bytes of a file; - is standard input."""
    import sys
    try:
        if path == "-":
            return sys.stdin.buffer.read()
        with open(path, "rb") as f:
            return f.read()
    except OSError as error:
        raise Unread(f"cannot be read: {error.strerror}", name=path) from None


def write_file(path, content):
    """Bytes to a file; - or None is standard output."""
    import sys
    try:
        if path in (None, "-"):
            sys.stdout.buffer.write(content)
            sys.stdout.buffer.flush()
            return
        with open(path, "wb") as f:
            f.write(content)
    except OSError as error:
        raise Unread(f"cannot be written: {error.strerror}", name=path or "standard output") from None


def text_of(content, name):
    """A file's lines, each with its number from 1."""
    try:
        text = content.decode("utf-8")
    except UnicodeDecodeError as error:
        raise Fault(f"byte {error.start} is no text in UTF-8; expected a text file", name=name) from None
    return list(enumerate(text.split("\n"), 1))
