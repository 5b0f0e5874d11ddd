"""A folder of a host: its state, its journal, and its objects' files, read and made by hand."""
import hashlib
import os
import re

from lib.chained import NAMELESS, SUM, first_line, lines_of, log, pieces_in
from lib.objects import name_of, stored
from lib.packed import Segments

LINE = re.compile(rb"([a-z0-9][a-z0-9_-]{0,31}|@host) (0|[1-9][0-9]{0,6})\n")


def requests_in(stream):
    """The whole frames at the front of a stream, one after another."""
    found, at = [], 0
    while (line := LINE.match(stream, at)) and line.end() + int(line[2]) <= len(stream):
        found.append(stream[at : line.end() + int(line[2])])
        at += len(found[-1])
    return found


# What stands in a log of uploads for the end of one.
END = b"part-end .\n"


def still_open(frames):
    """Of each tenant the frames of a log of uploads after its last end."""
    found, ended = [], set()
    for frame in reversed(frames):
        who, _, payload = frame.partition(b"\n")
        who = who.split(b" ")[0]
        ended |= {who} if payload == END else set()
        found += [] if who in ended else [frame]
    return found[::-1]


def content(path):
    with open(path, "rb") as file:
        return file.read()


def write(path, data):
    with open(path, "wb") as file:
        file.write(data)


class Folder:
    """A folder with a file for each object, or with segments."""

    def __init__(self, path):
        self.path = str(path)
        os.makedirs(self.path, exist_ok=True)
        os.chmod(self.path, 0o700)

    def inside(self, *names):
        return os.path.join(self.path, *names)

    def segments(self):
        """Its segments, or nothing if it has a file for each object."""
        return Segments(self.inside("segments")) if os.path.isdir(self.inside("segments")) else None

    def file_of(self, name):
        """The path of an object's file, if it has one of its own."""
        digits = name.decode()
        return self.inside("objects", digits[:2], digits[2:])

    def keep(self, name, data):
        if segments := self.segments():
            return segments.keep(name, data)
        os.makedirs(os.path.dirname(self.file_of(name)), exist_ok=True)
        write(self.file_of(name), data)

    def put(self, kind, text):
        """Stores an object, and gives its name."""
        name = name_of(kind, text)
        self.keep(name, stored(kind, text))
        return name

    def state(self):
        path = self.inside("state")
        return content(path) if os.path.exists(path) else None

    def set_state(self, text):
        write(self.inside("state"), text)

    def name(self):
        """The name of the state, in digits."""
        return hashlib.sha256(self.state() or b"").hexdigest()

    def journal_path(self):
        """The path of the journal that continues the state."""
        return self.inside("journal", self.name() + ".2")

    def old_journal_path(self):
        """Its path in version 1, which is frames alone."""
        return self.inside("journal", self.name())

    def log(self):
        """The journal after its lines."""
        written = content(self.journal_path())
        return written[lines_of(written)[0] :]

    def set_log(self, written):
        """Writes a journal that was begun over the state that is there."""
        write(self.journal_path(), first_line(self.name()) + written)

    def uploads_path(self, number):
        """The path of a log of uploads."""
        return self.inside(f"uploads.{number}")

    def logs(self):
        """The numbers of the logs of uploads that exist."""
        return [number for number in (1, 2) if os.path.lexists(self.uploads_path(number))]

    def referred(self):
        """The log of uploads to which the journal refers, or None."""
        return lines_of(content(self.journal_path()))[1]

    def uploads(self):
        """The frames that count of the log of uploads to which the journal refers, which must be right."""
        referred = self.referred()
        if referred is None:
            return b""
        written = content(self.uploads_path(referred.number))[: referred.length]
        pieces, end = pieces_in(NAMELESS, written)
        if (len(written), end, written[-SUM:]) != (referred.length, "whole", referred.sum):
            raise ValueError(f"{self.uploads_path(referred.number)} is not what the journal says")
        return b"".join(pieces)

    def journal(self):
        """The frames that a start does again: those of uploads in a log that are still open, and those of the journal, which must be
        right to its end."""
        if not os.path.exists(self.journal_path()):
            return content(self.old_journal_path()) if os.path.exists(self.old_journal_path()) else b""
        pieces, end = pieces_in(self.name(), self.log())
        if end == "altered":
            raise ValueError(f"{self.journal_path()} is altered")
        return b"".join(still_open(requests_in(self.uploads())) + pieces)

    def set_journal(self, stream):
        """Writes a journal of these bytes, with right sums."""
        self.set_log(log(self.name(), [stream] if stream else []))

    def journals(self):
        """The names of all journals."""
        home = self.inside("journal")
        return sorted(os.listdir(home)) if os.path.exists(home) else []

    def again(self):
        """How many requests a start does again."""
        return len(requests_in(self.journal()))

    def files(self):
        """The bytes of each file in the place of an object, by its name."""
        if segments := self.segments():
            return segments.files()
        found = {}
        for front in os.listdir(self.inside("objects")) if os.path.isdir(self.inside("objects")) else ():
            for rest in os.listdir(self.inside("objects", front)):
                name = (front + rest).encode()
                if len(name) == 64:
                    found[name] = content(self.file_of(name))
        return found

    def live(self):
        """The files of a host that runs since these were swept: without what is swept."""
        return segments.live() if (segments := self.segments()) else self.files()

    def place_of(self, name):
        """The file that has an object's bytes, where in it they begin, and how many they are."""
        if segments := self.segments():
            return segments.place_of(name)
        return self.file_of(name), 0, os.path.getsize(self.file_of(name))

    def content_of(self, name):
        """The bytes in an object's place."""
        path, at, length = self.place_of(name)
        return content(path)[at : at + length]

    def write_over(self, name, data):
        """Writes as many other bytes in an object's place, also while a host runs."""
        path, at, length = self.place_of(name)
        if len(data) != length:
            raise ValueError(f"{len(data)} bytes in the place of {length}")
        with open(path, "r+b") as file:
            file.seek(at)
            file.write(data)

    def flip(self, name):
        """Alters the last byte of an object's file, or makes it again what it was."""
        data = self.content_of(name)
        self.write_over(name, data[:-1] + bytes([data[-1] ^ 1]))

    def swept_path(self, name):
        """The path of an object's file once it is swept."""
        return self.inside("swept", name.decode())

    def sweep(self, name):
        """Takes an object's file away as a sweep does."""
        if segments := self.segments():
            return segments.remove(name)
        os.makedirs(self.inside("swept"), exist_ok=True)
        os.rename(self.file_of(name), self.swept_path(name))

    def swept(self):
        """The names of the files that are swept."""
        if segments := self.segments():
            return segments.removed()
        home = self.inside("swept")
        return sorted(os.listdir(home)) if os.path.exists(home) else []

    def parts(self):
        """What was being written: paths of files that are called so."""
        return [os.path.join(home, "part") for home, _, names in os.walk(self.path) if "part" in names]
