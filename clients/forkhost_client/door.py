"""A door for one tenant: frames of that tenant pass to the host, and no others do.

It is for a front end that knows its users. It stands before the socket, so which tenant it lets through is trusted.

The host serves one connection at a time, so no user has one. A frame is read whole before the host is asked, and the
reply is there whole, and the host is left, before a byte of it is handed out."""
from _signal import alarm
from io import BytesIO

from .address import is_who
from .forms import number
from .frames import BAD_FRAME, DONE, MAX_PAYLOAD, bytes_of, frame, framed, text_of
from .spool import told
from .turns import Turn

# Seconds without a byte of a frame that is begun, or in which too little of a reply is read, after which the process
# ends; and those without a next frame, where no upload is open.
PATIENCE, IDLE = 30, 600
PIECE = 1 << 16
# A reader is seen to read by pieces as small as this.
READ = 1 << 14
# A frame's first line: a tenant's name or `@host`, a length, and LF.
LONGEST_LINE = 41
LONGEST_NUMBER = 7
# To this user there are no other tenants.
NOBODY = framed(b"no unknown-tenant\n")


class BadFrame(Exception):
    """What came is no frame."""


def read_line(source, patience: int) -> bytes:
    """A frame's first line; nothing at the end."""
    alarm(patience)
    first = source.read(1)
    if first in (b"", b"\n"):
        return first
    alarm(PATIENCE)
    return first + source.readline(LONGEST_LINE - 1)


def read_frame(source, patience: int) -> "tuple | None":
    """Who asks, and what; None at the end."""
    line = read_line(source, patience)
    if not line:
        return None
    who, _, digits = line.partition(b" ")
    left, pieces = number(digits[:-1], LONGEST_NUMBER), []
    if not line.endswith(b"\n") or not is_who(text_of(who)) or left is None or left > MAX_PAYLOAD:
        raise BadFrame
    while left:
        alarm(PATIENCE)
        pieces.append(source.read1(min(left, PIECE)))
        left -= len(pieces[-1])
        if not pieces[-1]:
            raise BadFrame
    alarm(0)
    return who, b"".join(pieces)


def hand_out(reply, sink) -> None:
    """A reply to the user, at whatever pace they read."""
    with reply:
        while piece := reply.read(READ):
            alarm(PATIENCE)
            sink.write(piece)
            sink.flush()
    alarm(0)


def is_done(reply) -> bool:
    reply.readline()
    begun = reply.read(len(DONE))
    reply.seek(0)
    return begun == DONE


def asked_host(path: str, turn: Turn, who: bytes, payload: bytes):
    turn.stand(path)
    turn.take(payload)
    reply = told(path, frame(who, payload))
    turn.leave(payload, is_done(reply))
    return reply


def serve(socket_of, tenant: str, source, sink) -> None:
    """Frames up to the end of the input, or to a bad one, which is answered as the host does.

    `socket_of` tells before each frame at which socket the tenant's host is, or None if the tenant has no host."""
    turn = Turn(tenant)
    try:
        while asked := read_frame(source, PATIENCE if turn.is_taken() else IDLE):
            path = socket_of(tenant) if asked[0] == bytes_of(tenant) else None
            hand_out(asked_host(path, turn, *asked) if path is not None else BytesIO(NOBODY), sink)
    except BadFrame:
        hand_out(BytesIO(BAD_FRAME), sink)
