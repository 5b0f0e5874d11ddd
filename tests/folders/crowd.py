"""Many clients at once, each of whom is told what a session of its own requests is told."""
import os
import random
import socket
import threading
import time

from folders.cases import commit, raw
from folders.killing import changes
from lib.folder import Folder, requests_in
from lib.frames import frame, framed
from lib.live import Serving, to_end
from lib.objects import name_of, record
from lib.program import done, sound
from lib.waiting import PATIENCE

TENANTS = [b"a", b"bob", b"carol", b"zoe"]
GIVEN = [f"{tenant.decode()}=500000000" for tenant in TENANTS]
CLIENTS, ROUNDS = 200, 12
# As many are slow, and as many of each bad kind are there.
SLOW, BAD = 10, 10
BAD_LINE = b"! bad-frame\n"
GARBAGE = [b"\n", b"bob 06\nquota\n", b"bob 1048577\n", b"GET / HTTP/1.1\r\n\r\n", b"x" * 41]
# No good client waits longer for a reply, in seconds, or for more than this part of the time that all take: what all ask
# at once takes a machine less, however busy it is.
LONGEST, PART = 2, 2


class Session:
    """What one client asks, and what it is to be told: it has a repository and objects that nobody else has."""

    def __init__(self, number):
        self.tenant, self.chance = TENANTS[number % len(TENANTS)], random.Random(number)
        self.repository = b"r%d" % number
        self.head, self.objects, self.turns = None, [], []
        self.add(b"init " + self.repository + b"\n", b"ok\n")
        for at in range(ROUNDS):
            self.push(b"%d of %d\n" % (at, number))
            self.ask(number)
        self.add(b"init " + self.repository + b"\n", b"no repository-exists " + self.repository + b"\n")

    def add(self, payload, told):
        self.turns.append((payload, told))

    def push(self, text):
        """A commit more, with a tree and a file that no other one has."""
        blob = text * self.chance.choice([1, 1, 1, 40, 4000])
        tree = b"100644 a\0" + raw(name_of(b"blob", blob))
        content = commit(name_of(b"tree", tree), *([self.head] if self.head else [])) + text
        name = name_of(b"commit", content)
        line = b"update refs/heads/main %s %s" % (name, self.head) if self.head else b"create refs/heads/main " + name
        things = [(b"blob", blob), (b"tree", tree), (b"commit", content)]
        self.add(b"push %s\n%s\n\n" % (self.repository, line) + b"".join(record(*thing) for thing in things), b"ok\n")
        self.objects += things
        self.head = name

    def ask(self, number):
        thing = self.chance.choice(self.objects)
        self.add(b"cat-file %s\n" % name_of(*thing), b"ok\n" + record(*thing))
        self.add(b"for-each-ref %s\n" % self.repository, b"ok\n%s commit\trefs/heads/main\n" % self.head)
        # The file of a client of another tenant, which is there or not.
        other = name_of(b"blob", b"0 of %d\n" % ((number + 1) % CLIENTS))
        self.add(b"cat-file %s\n" % other, b"no missing %s\n" % other)

    def told(self):
        return b"".join(framed(told) for _, told in self.turns)


class Client(threading.Thread):
    """A client of its own session, which notes how long it waited for a reply."""

    def __init__(self, serving, number):
        super().__init__(daemon=True)
        self.serving, self.session = serving, Session(number)
        self.is_slow, self.is_eager = number < SLOW, number % 5 == 4
        self.longest, self.why = 0, "it did not end"

    def run(self):
        try:
            with self.serving.client() as stream:
                self.why = self.eager(stream) if self.is_eager else self.in_turn(stream)
        except OSError as error:
            self.why = repr(error)

    def in_turn(self, stream):
        for payload, told in self.session.turns:
            self.send(stream, frame(self.session.tenant, payload))
            begun = time.monotonic()
            found = exactly(stream, len(framed(told)))
            self.longest = max(self.longest, time.monotonic() - begun)
            if found != framed(told):
                return f"{found[:80]!r} to {payload[:40]!r}, and not {framed(told)[:80]!r}"
        return None

    def send(self, stream, text):
        slow = text[:60] if self.is_slow else b""
        for byte in slow:
            stream.sendall(bytes([byte]))
        stream.sendall(text[len(slow) :])

    def eager(self, stream):
        """All frames at once, while the replies are read."""
        text = b"".join(frame(self.session.tenant, payload) for payload, _ in self.session.turns)
        threading.Thread(target=sent, args=(stream, text), daemon=True).start()
        found = exactly(stream, len(self.session.told()))
        return None if found == self.session.told() else f"{found[:80]!r}"


def exactly(stream, count):
    told = bytearray()
    while len(told) < count and (piece := stream.recv(count - len(told))):
        told += piece
    return bytes(told)


def sent(stream, text):
    try:
        stream.sendall(text)
    except OSError:
        pass


class Others:
    """Connections that idle, that read nothing, that are cut in a frame, and that send garbage."""

    def __init__(self, serving):
        self.idle = [serving.client() for _ in range(BAD)]
        self.deaf = [serving.client() for _ in range(BAD)]
        for stream in self.deaf:
            threading.Thread(target=sent, args=(stream, frame(b"bob", b"quota\n") * 100_000), daemon=True).start()
        self.cut = [serving.client() for _ in range(BAD)]
        for at, stream in enumerate(self.cut):
            stream.sendall(frame(b"bob", b"quota\n")[: 1 + at])
            stream.shutdown(socket.SHUT_WR)
        self.garbage = [serving.client() for _ in GARBAGE]
        for text, stream in zip(GARBAGE, self.garbage):
            stream.sendall(text)

    def end(self, checks):
        for stream in self.cut + self.garbage:
            checks.same("what no frame is told", BAD_LINE, to_end(stream))
        idle = frame(b"carol", b"quota\n")
        for stream in self.idle:
            stream.sendall(idle)
            checks.same("one that idled is served", b"ok\n", reply(stream)[:3])
        for stream in self.idle + self.deaf + self.cut + self.garbage:
            stream.close()

    def count(self):
        return len(self.idle + self.deaf + self.cut + self.garbage)


def reply(stream):
    """The next reply's bytes."""
    length = b""
    while not length.endswith(b"\n"):
        piece = stream.recv(1)
        if not piece:
            return length
        length += piece
    return exactly(stream, int(length))


def served(checks, serving):
    """All clients at once, and what each of them was told."""
    others = Others(serving)
    clients = [Client(serving, number) for number in range(CLIENTS)]
    begun = time.monotonic()
    for client in clients:
        client.start()
    for client in clients:
        client.join(PATIENCE)
        checks.holds(f"client {client.session.repository!r}", client.why)
    took, longest = time.monotonic() - begun, max(client.longest for client in clients)
    soon = longest < max(LONGEST, took / PART)
    checks.holds("each reply came soon", None if soon else f"one took {longest:.1f} seconds of {took:.1f}")
    others.end(checks)
    return [client.session for client in clients]


def counted():
    """How many connections that are."""
    return CLIENTS + 3 * BAD + len(GARBAGE)


def show_crowd_in_memory(checks, program, work):
    serving = Serving(program, os.path.join(work, "socket"), counted(), "--at-once", "256", *GIVEN)
    served(checks, serving)
    checks.same("the end", done(), serving.ended())


def show_crowd(checks, program, work):
    """The same over a folder: one that is killed has all that was answered, in an order that explains each client."""
    folder = Folder(os.path.join(work, "kept"))
    serving = Serving(program, os.path.join(work, "socket"), counted() + 1, "--at-once", "256", "--dir", folder.path, *GIVEN)
    sessions = served(checks, serving)
    serving.child.kill()
    serving.child.wait()
    kept = requests_in(folder.journal())
    for session in sessions:
        # What was saved with a state is no longer in the journal.
        asked = [frame(session.tenant, payload) for payload, told in session.turns if changes(payload, told)]
        mine = [one for one in kept if one in set(asked)]
        checks.same(f"the journal's {session.repository!r}", asked[len(asked) - len(mine) :], mine)
    checks.same("check", sound(len(kept)), program.checked(folder.path))
    asks = b"".join(frame(it.tenant, b"for-each-ref %s\n" % it.repository) for it in sessions)
    told = b"".join(framed(b"ok\n%s commit\trefs/heads/main\n" % it.head) for it in sessions)
    checks.same("a start has all", done(told), program.ran("run", "--dir", folder.path, given=asks))
