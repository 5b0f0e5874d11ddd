"""A socket between a client and a host that looks at what passes, and changes it on demand."""
import socket
import threading
from typing import NamedTuple


class Asked(NamedTuple):
    connection: int
    line: str
    length: int
    # The length of the reply.
    told: int

    def word(self):
        return self.line.split(" ")[0]


class Ended(Exception):
    pass


def frame_of(reader):
    """The head and the payload of a frame of either side."""
    head = reader.readline()
    length = head.rstrip(b"\n").split(b" ")[-1]
    if not length.isdigit():
        raise Ended
    payload = reader.read(int(length))
    if len(payload) != int(length):
        raise Ended
    return head, payload


class Watcher:
    """Connections to `path` are carried on to the host at `target`, one after another."""

    def __init__(self, path, target, meddle=None):
        """`meddle` is given a request's line and its reply's frame, and gives what the client reads; None is an end."""
        self.path, self.target, self.meddle = path, target, meddle
        self.asked, self.connections = [], 0
        self.listener = socket.socket(socket.AF_UNIX)
        self.listener.bind(path)
        self.listener.listen(50)
        threading.Thread(target=self.serve, daemon=True).start()

    def serve(self):
        while True:
            try:
                stream, _ = self.listener.accept()
            except OSError:
                return
            self.connections += 1
            with stream, socket.socket(socket.AF_UNIX) as host:
                try:
                    host.connect(self.target)
                    self.carry(stream, host)
                except (Ended, OSError):
                    pass

    def carry(self, stream, host):
        with stream.makefile("rb") as asked, host.makefile("rb") as told:
            while True:
                head, payload = frame_of(asked)
                host.sendall(head + payload)
                reply = b"".join(frame_of(told))
                line = payload.partition(b"\n")[0].decode("utf-8", "surrogateescape")
                self.asked.append(Asked(self.connections, line, len(payload), len(reply)))
                given = self.meddle(line, reply) if self.meddle else reply
                stream.sendall(given or b"")
                if given != reply:
                    return

    def taken(self):
        """What was asked since the last look."""
        asked, self.asked = self.asked, []
        return asked

    def words(self):
        return [one.word() for one in self.taken()]

    def end(self):
        self.listener.close()
