"""The segments of a host's folder, read and made by hand."""
import hashlib
import os
from typing import NamedTuple

# The kind of an object whose length is in the same two bytes as its kind, and from which on no length is.
SHORT, LONG = b"\x80", 1 << 15
SUM = 32
NO_NAME = bytes(32)
# The longest file of an object.
LONGEST = 8_388_623
# A segment that has so many bytes is full.
FULL = 1 << 28


class Record(NamedTuple):
    kind: bytes
    name: bytes
    data: bytes


def spelled(record):
    """The bytes of a record."""
    size = len(record.data)
    titled = ((LONG + size).to_bytes(2, "big") if record.kind == SHORT else record.kind + size.to_bytes(4, "big")) + record.name + record.data
    return titled if record.kind in (b"o", SHORT) else titled + hashlib.sha256(titled).digest()


def record_of(name, data):
    """The record of a file under a name, in binary, as the program spells it."""
    if hashlib.sha256(data).digest() != name:
        return Record(b"f", name, data)
    return Record(SHORT if len(data) < LONG else b"o", name, data)


def long_record_of(name, data):
    """The same without the short form: so earlier programs spelled it."""
    return record_of(name, data)._replace(kind=b"o")


class Title(NamedTuple):
    kind: bytes
    name: bytes
    size: int
    # Where the bytes of the record begin.
    begin: int


def title_at(stream, at):
    """The title at a place of a segment, if all of it is there."""
    if stream[at : at + 1] >= SHORT:
        title = Title(SHORT, stream[at + 2 : at + 34], int.from_bytes(stream[at : at + 2], "big") - LONG, at + 34)
    else:
        title = Title(stream[at : at + 1], stream[at + 5 : at + 37], int.from_bytes(stream[at + 1 : at + 5], "big"), at + 37)
    return title if title.begin <= len(stream) else None


def record_at(stream, at):
    """The whole record at a place of a segment, and where it ends, or nothing."""
    title = title_at(stream, at)
    if title is None or title.kind not in (b"o", b"f", b"r", b"s", b"u", SHORT):
        return None
    record = Record(title.kind, title.name, stream[title.begin : title.begin + title.size])
    if (title.kind in b"rsu" and title.size) or (title.kind in b"su" and title.name != NO_NAME):
        return None
    if title.kind in (b"o", SHORT) and hashlib.sha256(record.data).digest() != title.name:
        return None
    end = at + len(spelled(record))
    return (record, end) if stream[at:end] == spelled(record) else None


def claimed_end(stream, at):
    """Where a record ends by its title, if that is in the segment."""
    title = title_at(stream, at)
    if title is None or title.size > LONGEST:
        return None
    sizes = {SHORT: title.size, b"o": title.size, b"f": title.size + SUM, b"r": SUM, b"s": SUM, b"u": SUM}
    if title.kind not in sizes or title.begin + sizes[title.kind] > len(stream):
        return None
    return title.begin + sizes[title.kind]


def places_in(stream):
    """Each record of a segment that is there, or nothing if it is damaged, with the places where it begins and ends."""
    at = 0
    while at < len(stream):
        one = record_at(stream, at)
        end = one[1] if one else claimed_end(stream, at)
        if end is None:
            return
        yield one and one[0], at, end
        at = end


SETTLED, UNDONE = Record(b"s", NO_NAME, b""), Record(b"u", NO_NAME, b"")


def records_in(stream):
    """The records of a segment that count, and the length of what they are in. A damaged one counts as one that undoes removals,
    and after it only objects count."""
    found, end, is_damaged = [], 0, False
    for record, _, end in places_in(stream):
        if record and (record.kind in (b"o", SHORT) or not is_damaged):
            found.append(record)
        if record is None:
            found.append(UNDONE)
            is_damaged = True
    return found, end


def shown(records):
    """What an opening shows of these records: files by name. What was removed since the last settling is back."""
    live, pending = {}, {}
    for record in records:
        if record.kind in (b"o", b"f", SHORT):
            live[record.name] = record.data
        elif record.kind == b"r" and record.name in live:
            pending[record.name] = live.pop(record.name)
        elif record.kind == b"s":
            pending = {}
        elif record.kind == b"u":
            live, pending = {**pending, **live}, {}
    return {**pending, **live}


class Segments:
    def __init__(self, path):
        self.path = path

    def paths(self):
        """The paths of the segments, in order."""
        return [os.path.join(self.path, name) for name in sorted(os.listdir(self.path))]

    def records(self):
        """The whole records of all segments, in order."""
        found = []
        for path in self.paths():
            with open(path, "rb") as file:
                found += records_in(file.read())[0]
        return found

    def add(self, record):
        """Appends a record, in a segment of its own."""
        last = int(os.path.basename(self.paths()[-1])) if self.paths() else 0
        with open(os.path.join(self.path, f"{last + 1:08}"), "xb") as file:
            file.write(spelled(record))

    def keep(self, name, data):
        self.add(record_of(bytes.fromhex(name.decode()), data))

    def remove(self, name):
        self.add(Record(b"r", bytes.fromhex(name.decode()), b""))

    def files(self):
        """The bytes of each file by its name, as an opening shows them."""
        return named(shown(self.records()))

    def live(self):
        """The same without what was removed since the last settling."""
        return named(shown([*self.records(), SETTLED]))

    def removed(self):
        """The names of the files that an opening puts back."""
        return sorted(name.decode() for name in {*self.files()} - {*self.live()})

    def place_of(self, name):
        """The segment that has an object's bytes, where in it they begin, and how many they are. They may be damaged."""
        for path in reversed(self.paths()):
            with open(path, "rb") as file:
                stream = file.read()
            for _, at, _ in reversed(list(places_in(stream))):
                title = title_at(stream, at)
                if title.kind in (b"o", b"f", SHORT) and title.name.hex().encode() == name:
                    return path, title.begin, title.size
        raise FileNotFoundError(name)


def named(files):
    """Files by their names in digits."""
    return {name.hex().encode(): data for name, data in files.items()}
