"""One connection to a host. The host serves one at a time, so it is held for one batch of requests alone."""
from _signal import SIGALRM, alarm, signal
from _socket import AF_UNIX, socket

from .faults import Fatal, Lost, unreached
from .frames import DONE, LONGEST_HEAD, MAX_PAYLOAD, bytes_of, frame, length_of, not_done, text_of

# Seconds without a first reply, after which a person is told that the host serves somebody else.
PATIENCE = 5
# A refusal's detail is at most a word of a payload.
LONGEST_REFUSAL = MAX_PAYLOAD + 64
PIECE = 1 << 16
# A reply may say that it has any length: what is longer is read by pieces, so that no more memory is taken than comes.
AT_ONCE = 1 << 24


class Data:
    """What follows `ok` in a reply, read as it comes."""

    def __init__(self, reader, left: int):
        self.reader, self.left = reader, left

    def read(self, count: int) -> bytes:
        """This many bytes, all of which the reply has."""
        if count > self.left:
            raise Fatal("the host's reply ends too early")
        self.left -= count
        return exactly(self.reader, count)

    def line(self, longest: int) -> bytes:
        """The bytes up to a line feed, without it."""
        found = self.reader.readline(min(self.left, longest + 1))
        self.left -= len(found)
        if not found.endswith(b"\n"):
            raise Fatal("the host's reply lacks a line")
        return found[:-1]

    def rest(self) -> bytes:
        return self.read(self.left)


class Connection:
    """Requests of one tenant, each answered before the next is sent; a `with` statement ends it.

    `_socket` and `_signal` are what `socket` and `signal` stand on, which take longer to read in than a listing."""

    def __init__(self, path: str, tenant: str, on_wait=None):
        """`on_wait` is called once where the first reply lets wait; in the main thread, and nobody else has an alarm."""
        self.tenant, self.is_timed = bytes_of(tenant), on_wait is not None
        if on_wait:
            signal(SIGALRM, lambda *_: on_wait())
            alarm(PATIENCE)
        self.stream = socket(AF_UNIX)
        self.reader, self.data = open(self.stream.fileno(), "rb", PIECE, closefd=False), None
        try:
            self.stream.connect(path)
        except OSError as fault:
            self.close()
            raise unreached(path, fault) from fault

    def __enter__(self) -> "Connection":
        return self

    def __exit__(self, *_) -> None:
        self.close()

    def stop_waiting(self) -> None:
        if self.is_timed:
            alarm(0)
            self.is_timed = False

    def close(self) -> None:
        self.stop_waiting()
        self.reader.close()
        self.stream.close()

    def ask(self, line: str, body: bytes = b"") -> Data:
        """The data of the reply, which is read before the next request; or `Refused`, or `HostFault`."""
        while self.data and self.data.left:
            self.data.read(min(self.data.left, PIECE))
        try:
            self.stream.sendall(frame(self.tenant, bytes_of(line) + b"\n" + body))
            head = self.reader.readline(LONGEST_HEAD)
        except OSError as fault:
            raise Lost(f"the host ended the connection: {fault.strerror or fault}") from fault
        self.stop_waiting()
        if not head:
            raise Lost("the host ended the connection")
        return self.answer(length_of(head))

    def answer(self, length: int) -> Data:
        begun = exactly(self.reader, min(length, len(DONE)))
        if begun == DONE:
            self.data = Data(self.reader, length - len(begun))
            return self.data
        if length > LONGEST_REFUSAL:
            raise Lost("this is not a reply of a forkhost")
        raise not_done(begun + exactly(self.reader, length - len(begun)))

    def text(self, line: str) -> str:
        """The data of the reply, whole, as text."""
        return text_of(self.ask(line).rest())


def pieces(reader, left: int):
    """This many bytes, or as many as come."""
    while left and (piece := reader.read(min(left, AT_ONCE))):
        left -= len(piece)
        yield piece


def exactly(reader, count: int) -> bytes:
    try:
        data = reader.read(count) if count <= AT_ONCE else b"".join(pieces(reader, count))
    except OSError as fault:
        raise Lost(f"the host ended the connection: {fault.strerror or fault}") from fault
    if len(data) != count:
        raise Lost("the host ended the connection within a reply")
    return data
