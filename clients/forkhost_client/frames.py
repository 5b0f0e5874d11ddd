"""Frames of requests and of replies, as bytes, and what a reply says."""
from .faults import Fatal, HostFault, Lost, Refused
from .forms import is_small, number

MAX_PAYLOAD = 1_048_576
DONE = b"ok\n"
BAD_FRAME = b"! bad-frame\n"
# No line of a reply's frame is longer: the greatest number has twenty digits.
LONGEST_HEAD = 24
LONGEST_NUMBER = 20


def text_of(data: bytes) -> str:
    """Text that stands for any bytes, as Python's names of files do."""
    return data.decode("utf-8", "surrogateescape")


def bytes_of(text: str) -> bytes:
    return text.encode("utf-8", "surrogateescape")


def frame(who: bytes, payload: bytes) -> bytes:
    return b"%s %d\n%s" % (who, len(payload), payload)


def frames(turns) -> bytes:
    """The input of a session: who asks, and what."""
    return b"".join(frame(who, payload) for who, payload in turns)


def framed(reply: bytes) -> bytes:
    return b"%d\n%s" % (len(reply), reply)


def replies(written: bytes) -> tuple:
    """The whole replies of an output, and what comes after the last one."""
    found, at = [], 0
    while (end := written.find(b"\n", at, at + LONGEST_HEAD) + 1) > 0:
        length = number(written[at : end - 1], LONGEST_NUMBER)
        if length is None or end + length > len(written):
            break
        found.append(written[end : end + length])
        at = end + length
    return found, written[at:]


def length_of(head: bytes) -> int:
    """The length that the first line of a reply's frame says."""
    if head == BAD_FRAME:
        raise Fatal("the host reported a bad frame and ended the connection")
    length = number(head[:-1], LONGEST_NUMBER) if head.endswith(b"\n") else None
    if length is None:
        raise Lost("this is not a reply of a forkhost")
    return length


def not_done(reply: bytes) -> Exception:
    """What a reply says that does not begin with `ok`."""
    kind, *words = reply[:-1].split(b" ")
    if reply.endswith(b"\n") and b"\n" not in reply[:-1] and words and is_small(words[0]) and all(words):
        if kind == b"no" and len(words) <= 2:
            return Refused(words[0].decode(), text_of(b"".join(words[1:])))
        if kind == b"host" and len(words) == 1:
            return HostFault(words[0].decode())
    return Lost("this is not a reply of a forkhost")
