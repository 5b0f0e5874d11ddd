"""Objects in segments, one record after another (docs/FORMATS.md, "Segment")."""
import mmap
import os
from hashlib import sha256

from .files import synced, written

# The kind of an object whose length is in the same two bytes as its kind, and from which on no length is.
SHORT, LONG = b"\x80", 1 << 15
NAME, SUM = 32, 32
NO_NAME = bytes(NAME)
FULL = 1 << 28


def title(length: int, name: bytes) -> bytes:
    """The title of an object."""
    return ((LONG + length).to_bytes(2, "big") if length < LONG else b"o" + length.to_bytes(4, "big")) + name


def title_at(stream, at: int) -> tuple:
    """The kind, the length and the name at this place, and where the bytes of the record begin. No kind if these are not there."""
    if stream[at : at + 1] >= SHORT:
        kind, size, begin = SHORT, int.from_bytes(stream[at : at + 2], "big") - LONG, at + 2 + NAME
    else:
        kind, size, begin = stream[at : at + 1], int.from_bytes(stream[at + 1 : at + 5], "big"), at + 5 + NAME
    return kind if begin <= len(stream) else b"", size, stream[begin - NAME : begin], begin


def record_at(stream, at: int) -> "tuple | None":
    """The kind and the name of the record at this place, where its bytes begin and how many they are, and where it ends."""
    kind, size, name, begin = title_at(stream, at)
    end = begin + size
    if kind not in (b"o", b"f", b"r", b"s", b"u", SHORT) or end > len(stream):
        return None
    if kind == SHORT:
        kind = b"o"
    if kind == b"o":
        return (kind, name, begin, size, end) if sha256(stream[begin:end]).digest() == name else None
    is_right = (kind == b"f" or not size) and (kind not in (b"s", b"u") or name == NO_NAME)
    if not is_right or sha256(stream[at:end]).digest() != stream[end : end + SUM]:
        return None
    return kind, name, begin, size, end + SUM


def claimed_end(stream, at: int) -> "int | None":
    """Where a damaged record ends, if its title says how long it is, and all of it is there."""
    kind, size, _, begin = title_at(stream, at)
    more = {SHORT: size, b"o": size, b"f": size + SUM, b"r": SUM, b"s": SUM, b"u": SUM}.get(kind)
    return begin + more if more is not None and begin + more <= len(stream) else None


class Segments:
    PLACE = "segments"

    def __init__(self, folder: str):
        self.path = os.path.join(folder, self.PLACE)
        # Of wanted names: the segment, and the place and the length of the object's bytes.
        self.found = {}

    def file_of(self, number: int) -> str:
        return os.path.join(self.path, f"{number:08}")

    def count(self) -> int:
        """The number of the last segment."""
        names = os.listdir(self.path) if os.path.isdir(self.path) else []
        return max((int(name) for name in names if len(name) == 8 and name.isdecimal()), default=0)

    def load(self, names: list) -> None:
        """Finds what a start shows of these. Removals that no `s` makes final are undone."""
        wanted, live, pending = {bytes.fromhex(name) for name in names}, {}, {}
        for number in range(1, self.count() + 1):
            for kind, name, *place in self.records(number):
                if kind == b"s":
                    pending = {}
                elif kind == b"u":
                    live, pending = {**pending, **live}, {}
                elif name in wanted and kind == b"r" and name in live:
                    pending[name] = live.pop(name)
                elif name in wanted and kind != b"r":
                    live[name] = (kind, number, *place)
        self.found = {name: rest for name, (kind, *rest) in {**pending, **live}.items() if kind == b"o"}

    def records(self, number: int):
        """The whole records of a segment; none if it is empty or not there. A damaged one counts as one that undoes removals. After
        it only objects count, whose names are their hashes: if its length was damaged, what follows may be bytes that a tenant
        chose."""
        if not os.path.isfile(self.file_of(number)) or not os.path.getsize(self.file_of(number)):
            return
        with open(self.file_of(number), "rb") as file, mmap.mmap(file.fileno(), 0, access=mmap.ACCESS_READ) as stream:
            at, is_damaged = 0, False
            while at is not None and at < len(stream):
                one = record_at(stream, at)
                if one and (one[0] == b"o" or not is_damaged):
                    yield one[:-1]
                if not one and claimed_end(stream, at) is not None:
                    yield b"u", b""
                    is_damaged = True
                at = one[-1] if one else claimed_end(stream, at)

    def read(self, name: str) -> "bytes | None":
        place = self.found.get(bytes.fromhex(name))
        if not place:
            return None
        number, begin, size = place
        with open(self.file_of(number), "rb") as file:
            file.seek(begin)
            return file.read(size)

    def has(self, name: str) -> bool:
        return bytes.fromhex(name) in self.found

    def write(self, rows) -> None:
        """Objects by name, in new segments."""
        os.makedirs(self.path, mode=0o700, exist_ok=True)
        rows = iter(rows)
        while (first := next(rows, None)) is not None:
            written(self.file_of(self.count() + 1), one_segment(first, rows))

    def take(self, other: "Segments", count: int, names: list) -> None:
        """This many segments of another folder on the same file system come here, behind the last one."""
        last = self.count()
        for number in range(1, count + 1):
            os.rename(other.file_of(number), self.file_of(last + number))
        synced(self.path)


def one_segment(first: tuple, rows):
    """The records of these objects, up to the one by which the segment is full."""
    size, row = 0, first
    while row is not None:
        name, data = row
        head = title(len(data), bytes.fromhex(name))
        yield head
        yield data
        size += len(head) + len(data)
        row = next(rows, None) if size < FULL else None
