"""A host that is running: a session over pipes, one frame at a time, or connections to its socket."""
import os
import select
import socket
import time

from lib.frames import frame, replies
from lib.program import ended
from lib.waiting import PATIENCE, until

# What stands for a reply that does not come.
NO_REPLY = b"no reply comes"


class Live:
    """A session of `run`."""

    def __init__(self, program, *words):
        self.child = program.begun("run", *words)

    def asked(self, who, payload):
        self.child.stdin.write(frame(who, payload))
        self.child.stdin.flush()
        line = self.child.stdout.readline()
        return self.child.stdout.read(int(line)) if line[:-1].isdigit() else line

    def ended(self, rest=b""):
        """How it ends after these last bytes of its input."""
        return ended(self.child, rest)


class Doubted(Live):
    """A session that may hang: it is over where a reply does not come in time."""

    def __init__(self, program, patience, *words):
        super().__init__(program, *words)
        self.patience, self.rest = patience, b""

    def asked(self, who, payload):
        """The reply, or that none came."""
        try:
            self.child.stdin.write(frame(who, payload))
            self.child.stdin.flush()
        except OSError:
            return NO_REPLY
        end = time.monotonic() + self.patience
        while True:
            found, self.rest = replies(self.rest)
            if found:
                return found[0]
            left = end - time.monotonic()
            if left <= 0 or not select.select([self.child.stdout], [], [], left)[0]:
                self.child.kill()
                self.child.communicate()
                return NO_REPLY
            piece = os.read(self.child.stdout.fileno(), 1 << 20)
            if not piece:
                return NO_REPLY
            self.rest += piece


def to_end(stream):
    """All bytes up to the stream's end, to where it is cut off, or to where no more come."""
    told = b""
    try:
        while piece := stream.recv(65536):
            told += piece
    except OSError:
        pass
    return told


class Serving:
    """A process of `serve`, which has bound its socket."""

    def __init__(self, program, path, connections, *words):
        self.path = path
        before = self.inode()
        self.child = program.begun("serve", "--socket", path, "--connections", str(connections), *words)
        until(lambda: self.inode() not in (None, before) or self.child.poll() is not None)

    def inode(self):
        return os.lstat(self.path).st_ino if os.path.lexists(self.path) else None

    def client(self):
        """A new connection."""
        stream = socket.socket(socket.AF_UNIX)
        stream.settimeout(PATIENCE)
        stream.connect(self.path)
        return stream

    def told(self, given):
        """What a connection is answered to these bytes, after which the client closes its side."""
        with self.client() as stream:
            stream.sendall(given)
            stream.shutdown(socket.SHUT_WR)
            return to_end(stream)

    def ended(self):
        return ended(self.child)
