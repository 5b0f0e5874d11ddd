"""One frame to the host, and its whole reply, over a connection that is over before anybody reads the reply."""
import os
from _socket import AF_UNIX, SHUT_WR, socket
from io import BytesIO

from .faults import Internal, Lost, unreached
from .frames import LONGEST_HEAD, length_of
from .nameless import nameless

PIECE = 1 << 16
# A longer reply goes into a file without a name, in this folder where the environment has none.
IN_MEMORY, FOLDER = 8 << 20, "/tmp"
GONE = "the host ended the connection"


def told(path: str, given: bytes):
    """The frame of the reply, as a file whose position is its beginning."""
    stream = socket(AF_UNIX)
    try:
        connect(stream, path)
        send(stream, given)
        with open(stream.fileno(), "rb", PIECE, closefd=False) as reader:
            head = line(reader)
            return kept(head, length_of(head), reader)
    finally:
        stream.close()


def connect(stream, path: str) -> None:
    try:
        stream.connect(path)
    except OSError as fault:
        raise unreached(path, fault) from fault


def send(stream, given: bytes) -> None:
    """All that this connection asks, so the host waits for nothing after its reply."""
    try:
        stream.sendall(given)
        stream.shutdown(SHUT_WR)
    except OSError as fault:
        raise Lost(f"{GONE}: {fault.strerror}") from fault


def line(reader) -> bytes:
    try:
        head = reader.readline(LONGEST_HEAD)
    except OSError as fault:
        raise Lost(f"{GONE}: {fault.strerror}") from fault
    if not head:
        raise Lost(GONE)
    return head


def pieces(reader, left: int):
    """This many bytes, as they come."""
    while left:
        try:
            piece = reader.read1(min(left, PIECE))
        except OSError as fault:
            raise Lost(f"{GONE}: {fault.strerror}") from fault
        if not piece:
            raise Lost(GONE)
        left -= len(piece)
        yield piece


def kept(head: bytes, left: int, reader):
    folder = os.environ.get("TMPDIR") or FOLDER
    try:
        file = BytesIO() if left <= IN_MEMORY else nameless(folder)
        file.write(head)
        for piece in pieces(reader, left):
            file.write(piece)
        file.seek(0)
        return file
    except OSError as fault:
        shown = f"a reply cannot be kept: {fault.strerror}"
        raise Internal(f"{shown}, in '{folder}'", shown) from fault
