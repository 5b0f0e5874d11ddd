"""Uploads of one tenant, one at a time: the host has one open for each tenant, and takes its parts from any connection."""
import os

from .faults import unreached

# Requests that begin an upload, go on with it or end it, and those that one in between is in the way of.
VERBS = (b"part", b"part-end", b"part-drop", b"push")


class Turn:
    """A lock among the doors of a tenant, by a file beside the host's socket. It goes with the process."""

    def __init__(self, tenant: str):
        self.tenant, self.path, self.file = tenant, "", -1

    def is_taken(self) -> bool:
        return self.file >= 0

    def stand(self, socket: str) -> None:
        """Before a request, at the socket of the tenant's host. An upload that is open at another host is given up."""
        path = f"{socket}.{self.tenant}.turn"
        if path != self.path:
            self.let_go()
            self.path = path

    def let_go(self) -> None:
        if self.is_taken():
            os.close(self.file)
            self.file = -1

    def take(self, payload: bytes) -> None:
        """Before a request: it waits where it is about an upload, and another door has one open."""
        if not self.is_taken() and verb(payload) in VERBS:
            from fcntl import LOCK_EX, flock

            try:
                self.file = os.open(self.path, os.O_RDWR | os.O_CREAT | os.O_NOFOLLOW | os.O_CLOEXEC, 0o600)
            except FileNotFoundError as fault:
                # The folder of the socket is gone, and the host with it.
                raise unreached(self.path, fault) from fault
            flock(self.file, LOCK_EX)

    def leave(self, payload: bytes, is_done: bool) -> None:
        """After its reply: a part that is done leaves the upload open."""
        if verb(payload) in VERBS and not (is_done and verb(payload) == b"part"):
            self.let_go()


def verb(payload: bytes) -> bytes:
    return payload[: payload.find(b"\n")].partition(b" ")[0]
