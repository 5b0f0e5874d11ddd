"""The folder of a host that is stopped (docs/OPERATING.md, "The folder")."""
import os
from fcntl import LOCK_EX, LOCK_NB, flock
from hashlib import sha256

from forkhost_client.faults import Fatal

from .files import content, synced, written
from .judging import judge
from .loose import Loose
from .segments import Segments
from .state import State

# The first line of a journal, which is all that it has after serving has ended.
FIRST = 75


class Folder:
    def __init__(self, path: str):
        self.path, self.lock = path, -1
        is_packed = os.path.isdir(self.inside(Segments.PLACE))
        self.store = Segments(path) if is_packed else Loose(path)

    def inside(self, *names: str) -> str:
        return os.path.join(self.path, *names)

    def text(self) -> bytes:
        return content(self.inside("state")) or b""

    def take(self) -> None:
        """It is sound, and from now on no host starts over it, until `leave`."""
        before = self.text()
        judge(self.path)
        if os.stat(self.path).st_uid != os.geteuid():
            raise Fatal(f"'{self.path}' is another user's; run this as the user of its host")
        self.hold()
        journal = content(self.inside("journal", sha256(before).hexdigest() + ".2")) or b""
        if self.text() != before or len(journal) > FIRST:
            raise Fatal(f"a host has run over '{self.path}' meanwhile")

    def hold(self) -> None:
        """Takes the lock that a host takes."""
        self.lock = os.open(self.inside("lock"), os.O_RDWR | os.O_CREAT | os.O_NOFOLLOW | os.O_CLOEXEC, 0o600)
        try:
            flock(self.lock, LOCK_EX | LOCK_NB)
        except BlockingIOError as fault:
            raise Fatal(f"a process has '{self.path}' open") from fault

    def leave(self) -> None:
        if self.lock >= 0:
            os.close(self.lock)
            self.lock = -1

    def state(self) -> State:
        return State(self.text(), self.path)

    def put(self, text: bytes) -> None:
        """A state takes the place of the one that is there, in one step."""
        part = self.inside("part")
        if os.path.lexists(part):
            os.remove(part)
        written(part, [text])
        os.rename(part, self.inside("state"))
        synced(self.path)
