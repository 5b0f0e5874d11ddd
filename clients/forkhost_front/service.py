"""A program of Git's that serves a cache, between the standard streams."""
import os

from forkhost_client.child import Child
from forkhost_client.faults import Refused

from . import hooked
from .cache import Cache
from .environment import environment
from .settings import Settings

PIECE = 1 << 16
STANDARD_INPUT, STANDARD_OUTPUT = 0, 1
# How the report of a push begins (gitprotocol-pack(5)).
REPORT = b"unpack "
# How http-backend begins where it turns a request away (RFC 3875, 6.3.3): it ends with status 0 then too.
STATUS = b"Status: "
# Where the head of what http-backend says ends.
BLANK = b"\r\n\r\n"
# Git's own bound of one piece of memory while it reads a push: a delta of a few bytes can stand for any length.
MOST_MEMORY = {"GIT_ALLOC_LIMIT": "256m"}


class Carried:
    """What a program has said, on its way to the client."""

    def __init__(self, is_push: bool):
        """Bytes that went to the client, whether that was gone before the end, whether a push was reported, whether the
        request was turned away, and whether nothing followed the head."""
        self.bytes, self.is_alone, self.is_reported, self.is_turned_away, self.is_bare = 0, False, False, False, False
        self.is_push, self.last = is_push, b""

    def look(self, piece: bytes) -> None:
        """No name of a reference has a space, so none of those that are listed looks like a report."""
        self.is_reported = self.is_reported or REPORT in self.last + piece
        self.last = piece[1 - len(REPORT) :]

    def hand_on(self, source: int) -> None:
        while piece := os.read(source, PIECE):
            self.is_turned_away = self.is_turned_away or (not self.bytes and piece.startswith(STATUS))
            self.is_bare = not self.bytes and piece.endswith(BLANK)
            if self.is_push:
                self.look(piece)
            try:
                while piece:
                    written = os.write(STANDARD_OUTPUT, piece)
                    self.bytes, piece = self.bytes + written, piece[written:]
            except OSError:
                self.is_alone = True
                return


class Served:
    def __init__(self, status: int, carried: Carried, words: str):
        """How the program ended. `words` are what the hook told of the host's replies, if it was asked."""
        self.status, self.carried, self.words = status, carried, words
        self.bytes = carried.bytes

    def word(self) -> str:
        """How it ended, for the log. What is reported of a push for which the host was not asked is that it is refused."""
        if self.carried.is_alone:
            return "client-gone"
        ended = "refused" if self.carried.is_reported or self.carried.is_turned_away else "ok"
        return self.words or (ended if self.status == 0 else "failed")


class Service:
    """A repository of one tenant, by its cache."""

    def __init__(self, settings: Settings, tenant: str, repository: str, is_push: bool):
        self.settings, self.is_push = settings, is_push
        self.cache = Cache(settings, tenant, repository)

    def serve(self, words: list, more: dict) -> Served:
        """Runs a program of Git's once the cache is as the host is; then there is room for all caches."""
        try:
            self.cache.begin()
            self.cache.freshen()
            return self.run(words, more)
        finally:
            has_grown = self.is_push or self.cache.has_grown
            self.cache.close()
            if has_grown:
                from .caches import make_room

                make_room(self.settings, self.cache)

    def told(self, refusal: Refused) -> str:
        """Why the host did not show the repository, in words."""
        from forkhost_client.words import told

        return told(refusal, self.cache.address)

    def outer(self, more: dict, told: int) -> dict:
        """What the program and its hooks are told. Git finds the folder by its words."""
        found = {**environment(self.cache.path, self.settings.bytes), **more, **(MOST_MEMORY if self.is_push else {})}
        del found["GIT_DIR"]
        address = self.cache.address
        found |= {hooked.TENANT: address.tenant, hooked.REPOSITORY: address.repository}
        found |= {hooked.PLACE: self.settings.place}
        return found | {hooked.LOCK: str(self.cache.lock.file), hooked.REPORT: str(told)}

    def run(self, words: list, more: dict) -> Served:
        """The program reads what the client says itself. It and its children have the files of the locks."""
        report, told = os.pipe()
        os.set_blocking(report, False)
        files = (told, self.cache.lock.file, self.cache.use.file)
        child = Child(words, self.outer(more, told), STANDARD_INPUT, files=files)
        os.close(told)
        carried = Carried(self.is_push)
        carried.hand_on(child.output.fileno())
        child.output.close()
        status = child.wait()
        if status and not carried.is_alone:
            self.cache.doubt()
        return Served(status, carried, taken(report))


def taken(report: int) -> str:
    """What was written into a pipe."""
    try:
        return os.read(report, PIECE).decode()
    except BlockingIOError:
        return ""
    finally:
        os.close(report)
