"""Objects as records: NAME, type and size in a line, the content, and a line feed."""
from .connection import Data
from .faults import Fatal
from .forms import is_name, number
from .frames import text_of

LONGEST_LINE = 512
LONGEST_LENGTH = 19
KINDS = ("blob", "tree", "commit", "tag")


class Record:
    def __init__(self, name: str, kind: str, content: bytes):
        self.name, self.kind, self.content = name, kind, content


class Size:
    """What an object is, without its content."""

    def __init__(self, name: str, kind: str, length: int):
        self.name, self.kind, self.length = name, kind, length
        # The length of its record.
        self.record = len(f"{name} {kind} {length}\n") + length + 1


class Linked:
    """An object that something names."""

    def __init__(self, name: str, kind: str):
        self.name, self.kind = name, kind


def read_record(data: Data) -> Record:
    words = data.line(LONGEST_LINE).split(b" ")
    name, kind = text_of(words[0]), text_of(b"".join(words[1:2]))
    length = number(words[-1], LONGEST_LENGTH)
    if len(words) != 3 or length is None or kind not in KINDS or not is_name(name):
        raise Fatal("a record from the host has a bad header")
    content = data.read(length)
    if data.read(1) != b"\n":
        raise Fatal("a record from the host has a bad end")
    return Record(name, kind, content)


def records(data: Data):
    while data.left:
        yield read_record(data)


def linked(tag: bytes) -> Linked:
    """What the content of a tag names."""
    first, second, _ = [*tag.split(b"\n", 2), b"", b""][:3]
    name, kind = text_of(first.removeprefix(b"object ")), text_of(second.removeprefix(b"type "))
    if not first.startswith(b"object ") or not second.startswith(b"type ") or not is_name(name) or kind not in KINDS:
        raise Fatal("a tag from the host has a bad header")
    return Linked(name, kind)
