"""Peers that hold a host as long as they can: each has 30 seconds for a frame that it began, and for a whole reply."""
import os
import threading
import time

from folders.clients import ALICE, GREAT_ASK, GREAT_PUSH, QUOTA, TENANTS, TOLD
from lib.frames import framed, frames
from lib.live import Serving
from lib.program import done

# A peer has this many seconds; what a machine with much to do takes longer is not counted against the host.
LEAST, MOST = 29, 42
LONG = GREAT_ASK * 40


def sends_slowly(stream):
    """A frame, byte by byte, as long as anybody takes it."""
    for byte in QUOTA[:-1] * 10:
        stream.sendall(bytes([byte]))
        time.sleep(3)


def sends_half(stream):
    """Two frames in one piece, of which the last byte never comes."""
    stream.sendall(QUOTA + QUOTA[:-1])


def reads_slowly(stream):
    """A long reply is asked for, and a byte of it is taken now and then."""
    ask(stream)
    while stream.recv(1):
        time.sleep(1)


def reads_some(stream):
    """The same, of which some thousands are taken each second."""
    ask(stream)
    while stream.recv(4096):
        time.sleep(0.2)


def reads_nothing(stream):
    """A long reply is asked for, and is left where it is."""
    ask(stream)


def ask(stream):
    threading.Thread(target=sends, args=(stream, LONG), daemon=True).start()


def sends(stream, text):
    try:
        stream.sendall(text)
    except OSError:
        pass


def waits(stream):
    """Nothing is begun, so it may take as long as it likes."""
    time.sleep(LEAST + 5)
    stream.sendall(QUOTA)
    told = b""
    while len(told) < len(TOLD) and (piece := stream.recv(64)):
        told += piece
    stream.close()
    return told


SLOW = (sends_slowly, sends_half, reads_slowly, reads_some, reads_nothing)


class Held:
    """A host that one peer holds, and another one that waits for its turn."""

    def __init__(self, program, folder, way):
        home = os.path.join(folder, way.__name__)
        os.mkdir(home)
        self.way, self.told, self.took, self.said = way, None, None, None
        self.serving = Serving(program, os.path.join(home, "socket"), 3, *TENANTS)
        self.pushed = self.serving.told(frames([(ALICE, b"init r\n"), (ALICE, GREAT_PUSH)]))
        self.first, self.next = self.serving.client(), self.serving.client()
        self.next.settimeout(MOST + 10)
        self.next.sendall(QUOTA)
        self.threads = [threading.Thread(target=it, daemon=True) for it in (self.hold, self.wait)]
        for thread in self.threads:
            thread.start()

    def hold(self):
        try:
            self.said = self.way(self.first)
        except OSError:
            pass

    def wait(self):
        begun = time.monotonic()
        try:
            self.told = self.next.recv(len(TOLD))
        except OSError:
            self.told = b"nothing"
        self.took = time.monotonic() - begun
        self.next.close()

    def ended(self):
        self.threads[1].join()
        self.first.close()
        return self.serving.ended()


def show_patience(checks, program, folder):
    """Each of them is cut, and whoever waits is served then; but one that has begun nothing is waited for."""
    held = [Held(program, folder, way) for way in (*SLOW, waits)]
    for one in held:
        label = one.way.__name__
        checks.same(f"{label}: what was pushed before", framed(b"ok\n") * 2, one.pushed)
        one.threads[1].join(MOST + 20)
        checks.same(f"{label}: the next one is served", TOLD, one.told)
        if one.way is waits:
            one.threads[0].join(MOST)
            checks.same(f"{label}: it was served before", TOLD, one.said)
        else:
            checks.same(f"{label}: within {LEAST} to {MOST} seconds, {one.took:.1f}", True, LEAST < one.took < MOST)
        if one.told == TOLD:
            checks.same(f"{label}: the end", done(), one.ended())
