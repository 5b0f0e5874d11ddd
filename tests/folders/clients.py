"""Clients of a socket, right ones and such as go, send garbage, or read nothing."""
import os
import socket
import threading

from folders.cases import B, D, OBJECTS
from lib.frames import frame, framed, frames
from lib.live import Serving, to_end
from lib.objects import name_of, record
from lib.program import done
from lib.waiting import unread, until, until_it_waits

ALICE, BOB = b"alice", b"bob"
TENANTS = ["alice=100000000", "bob=1000"]
QUOTA = frame(BOB, b"quota\n")
TOLD = framed(b"ok\n0 1000\n")
BAD = b"! bad-frame\n"
PUSH = b"push r\ncreate refs/heads/main %s\n\n" % D + b"".join(record(*thing) for thing in OBJECTS.values())
# One that is no longer than a payload may be, and longer than a socket holds.
GREAT = (b"blob", b"x" * 1_000_000)
GREAT_PUSH = b"push r\n\n" + record(*GREAT)
GREAT_ASK = frame(ALICE, b"cat-file %s\n" % name_of(*GREAT))
GREAT_TOLD = framed(b"ok\n" + record(*GREAT))


def served(program, folder, connections):
    return Serving(program, os.path.join(folder, "socket"), connections, *TENANTS)


def still_serves(checks, label, serving):
    checks.same(f"{label}: the next client", TOLD, serving.told(QUOTA))


def show_many(checks, program, folder):
    """Connections one after another share the host, and so do ten that wait at once."""
    serving = served(program, folder, 15)
    turns = [(ALICE, b"init r\n"), (BOB, b"init r\n"), (ALICE, PUSH)]
    turns += [(BOB, b"cat-file %s\n" % B), (b"carol", b"quota\n")]
    wanted = [b"ok\n", b"ok\n", b"ok\n", b"no missing %s\n" % B, b"no unknown-tenant\n"]
    checks.same("two tenants in one connection", b"".join(map(framed, wanted)), serving.told(frames(turns)))
    blob = record(*OBJECTS[B])
    checks.same("what was pushed is there", framed(b"ok\n" + blob), serving.told(frame(ALICE, b"cat-file %s\n" % B)))
    checks.same("nothing is told to nothing", b"", serving.told(b""))
    with serving.client() as stream:
        for byte in QUOTA * 2:
            stream.sendall(bytes([byte]))
        checks.same("frames byte by byte", TOLD * 2, exactly(stream, len(TOLD * 2)))
        stream.sendall(QUOTA)
        checks.same("one more while it is open", TOLD, exactly(stream, len(TOLD)))
    waiting = [serving.client() for _ in range(10)]
    for number, stream in reversed(list(enumerate(waiting))):
        stream.sendall(frame(BOB, b"init r%d\n" % number))
        stream.shutdown(socket.SHUT_WR)
    for stream in waiting:
        checks.same("a client that waits for its turn", framed(b"ok\n"), to_end(stream))
        stream.close()
    still = frames([(BOB, b"drop r%d\n" % number) for number in range(10)])
    checks.same("what all of them did", framed(b"ok\n") * 10, serving.told(still))
    checks.same("the end after the last of 15", done(), serving.ended())
    checks.same("the socket is gone", False, os.path.exists(serving.path))


def exactly(stream, count):
    told = b""
    while len(told) < count and (piece := stream.recv(count - len(told))):
        told += piece
    return told


def hang_up(stream, given):
    """A client that sends this and goes."""
    stream.sendall(given)
    stream.close()


def turn_away(stream, given):
    """A client that sends this, reads the first byte of its reply, and disconnects."""
    stream.sendall(given)
    stream.recv(1)
    stream.close()


def turn_deaf(stream, given):
    """A client that sends this and will read nothing."""
    stream.shutdown(socket.SHUT_RD)
    send_all(stream, given)
    stream.close()


def show_gone_clients(checks, program, folder):
    garbage = [b"\n", b"bob 06\nquota\n", b"bob 1048577\n", b"GET / HTTP/1.1\r\n\r\n", b"\0" * 100_000]
    cuts = [QUOTA[:length] for length in range(1, len(QUOTA))]
    pending = [GREAT_ASK, GREAT_ASK * 50, QUOTA * 3000]
    gone = [(hang_up, text) for text in cuts + pending]
    gone += [(way, text) for way in (turn_away, turn_deaf) for text in pending]
    count = 1 + 2 * (len(garbage) + len(cuts)) + 2 * len(gone) + 2
    serving = served(program, folder, count)
    given = frames([(ALICE, b"init r\n"), (ALICE, GREAT_PUSH)])
    checks.same("a great object is pushed", framed(b"ok\n") * 2, serving.told(given))
    for text in garbage + cuts:
        with serving.client() as stream:
            send_all(stream, text)
            checks.same(f"the reply to {text[:40]!r}", BAD, to_end(stream))
        still_serves(checks, f"after {text[:40]!r}", serving)
    for way, text in gone:
        way(serving.client(), text)
        still_serves(checks, f"{way.__name__} after {text[:40]!r}", serving)
    checks.same("replies before garbage", TOLD * 2 + BAD, serving.told(QUOTA * 2 + b"x"))
    checks.same("a long reply is whole", GREAT_TOLD, serving.told(GREAT_ASK))
    checks.same("the end", done(), serving.ended())


def send_all(stream, text):
    """Sends what the other side takes, and ends the sending."""
    try:
        stream.sendall(text)
        stream.shutdown(socket.SHUT_WR)
    except OSError:
        pass


def is_held(serving, slow):
    """Waits until bytes of a reply wait for a client that reads none, and the host waits for it; whether that is so."""
    return until(lambda: unread(slow) > 0) and until_it_waits(serving.child.pid)


def show_slow_clients(checks, program, folder):
    """Clients that read nothing for a while: the host waits for them, and then for the next."""
    serving = served(program, folder, 4)
    given = frames([(ALICE, b"init r\n"), (ALICE, GREAT_PUSH)])
    checks.same("a great object is pushed", framed(b"ok\n") * 2, serving.told(given))
    slow, next_one = serving.client(), serving.client()
    sender = threading.Thread(target=send_all, args=(slow, GREAT_ASK * 20), daemon=True)
    sender.start()
    next_one.sendall(QUOTA)
    checks.same("bytes wait for it", True, is_held(serving, slow))
    checks.same("the host waits", None, serving.child.poll())
    checks.same("all is told in the end", GREAT_TOLD * 20, to_end(slow))
    sender.join()
    slow.close()
    checks.same("then the next is served", TOLD, exactly(next_one, len(TOLD)))
    next_one.close()
    slow = serving.client()
    sender = threading.Thread(target=send_all, args=(slow, GREAT_ASK * 20), daemon=True)
    sender.start()
    is_held(serving, slow)
    slow.shutdown(socket.SHUT_RDWR)
    slow.close()
    sender.join()
    checks.same("the end after one that never reads", done(), serving.ended())
