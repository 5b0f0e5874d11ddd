"""Users of a door who read slowly, send slowly, or do neither: the host serves all others meanwhile."""
import os
import random
import select
import signal
import socket
import subprocess
import time

from client.by_hand import StandIn, authorized_line
from client.killed import great
from lib.frames import frame, framed
from lib.live import to_end
from lib.making import hashed
from lib.program import PATIENCE
from lib.waiting import until, until_it_waits
from lib.world import World, finished

# Seconds in which others are answered, those after which a door ends, and those after which a busy machine has ended it.
AT_ONCE, CUT, ENDED = 2, 30, 240
TRIES = 3
# Bytes of a reply that fits between the host and a door, but not between the door and its user.
BETWEEN = 300_000
QUOTA, NOBODY = frame(b"alice", b"quota\n"), framed(b"no unknown-tenant\n")
FETCH = frame(b"alice", b"fetch r refs/heads/main\n")


class User:
    """Somebody at a door whose process has begun: it has answered by itself that there is no bob."""

    def __init__(self, door, who=b"bob"):
        before = len(door.children)
        self.stream = socket.socket(socket.AF_UNIX)
        self.stream.settimeout(PATIENCE)
        self.stream.connect(door.path)
        self.reader = self.stream.makefile("rb")
        self.send(frame(who, b"quota\n"))
        self.is_begun = self.reader.read(len(NOBODY)) == NOBODY
        until(lambda: len(door.children) > before)
        self.process = door.children[before]

    def send(self, given):
        self.stream.sendall(given)

    def told(self, given):
        self.send(given)
        return self.reply()

    def reply(self):
        head = self.reader.readline()
        return head + self.reader.read(int(head))

    def end(self):
        """What else is there for them, how the process ends, and what it says."""
        self.stream.shutdown(socket.SHUT_WR)
        left = b"".join(iter(lambda: self.reader.read(65536), b""))
        return left, *self.ended()

    def ended(self):
        over(self.process)
        self.leave()
        return self.process.returncode, self.process.stderr.read()

    def leave(self):
        self.reader.close()
        self.stream.close()


class Doors:
    """A host with two tenants, of whom alice has a great repository, and a door for each of them."""

    def __init__(self, checks, program, folder):
        self.checks = checks
        self.world = world = World(checks, program, folder, "alice=1000000000", "bob=1000000")
        self.alice, self.bob = self.door("alice"), self.door("bob")
        world.init("alice", "r")
        world.repository("source")
        great(world, "main", random.Random(6), count=24)
        self.blob = hashed(world, "source", "blob", b"x" * BETWEEN)
        refs = ["main", f"{self.blob}:refs/tags/blob"]
        world.succeeds("a push in parts", world.git("source", "push", "-q", f"forkhost::{self.alice.path}/alice/r", *refs))
        self.long, self.quota = self.at_socket(FETCH), self.at_socket(QUOTA)

    def door(self, tenant, name=None, host=None, before="exec "):
        door = StandIn(self.world, name or tenant, authorized_line(host or self.world.host.socket, tenant, "AAAAkey"))
        door.command = before + door.command
        return door

    def at_socket(self, given):
        return self.world.host.serving.told(given)

    def others_are_answered(self, label):
        """Two checks: a user of another door is answered at once, and so is one at the socket."""
        bobs = frame(b"bob", b"quota\n")

        def by_door():
            user = User(self.bob, b"alice")
            user.stream.settimeout(AT_ONCE)
            try:
                user.told(bobs)
            finally:
                user.leave()

        def by_socket():
            with self.world.host.serving.client() as stream:
                stream.settimeout(AT_ONCE)
                stream.sendall(bobs)
                stream.recv(1)

        for at, ask in (("another door", by_door), ("the socket", by_socket)):
            self.checks.same(f"{label}: at {at}", True, any(is_at_once(ask) for _ in range(TRIES)))


def over(process):
    """Waits for the end of a process; one that does not end is killed."""
    try:
        process.wait(timeout=ENDED)
    except subprocess.TimeoutExpired:
        process.kill()
        process.wait()


def is_at_once(ask):
    """Whether a request is answered in time. A busy machine may let anybody wait, so there are some tries."""
    try:
        ask()
        return True
    except TimeoutError:
        return False


def show_slow(checks, program, folder):
    """Nobody is held up by them, and they get their whole reply when they go on."""
    doors = Doors(checks, program, folder)
    small = frame(b"alice", b"cat-file %s\n" % doors.blob.encode())
    kinds = {
        "reads nothing of a long reply": ([FETCH], [b""], doors.long),
        "reads nothing of a reply that fits between": ([small], [b""], doors.at_socket(small)),
        "sends half a frame": ([QUOTA[:-3]], [QUOTA[-3:]], doors.quota),
        "sends half a line": ([QUOTA[:4]], [QUOTA[4:]], doors.quota),
        "sends half a frame after one": ([QUOTA, QUOTA[:-3]], [QUOTA[-3:]], doors.quota * 2),
        "sends a byte a second after one": ([QUOTA, *(QUOTA[at : at + 1] for at in range(3))], [QUOTA[3:]], doors.quota * 2),
        "sends nothing after one": ([QUOTA], [QUOTA], doors.quota * 2),
    }
    for label, (before, after, wanted) in kinds.items():
        user = User(doors.alice)
        checks.same(f"{label}: the door is there", True, user.is_begun)
        for given in before:
            user.send(given)
            time.sleep(1) if "a second" in label else until_it_waits(user.process.pid)
        doors.others_are_answered(label)
        for given in after:
            user.send(given)
        checks.same(f"{label}: what they are told", (wanted, 0, b""), user.end())
    show_byte_by_byte(doors)
    doors.world.host.ends_well(checks, "after slow ones")


def show_byte_by_byte(doors):
    """A byte a second of a long reply. Meanwhile the door has it in a file without a name, and hardly in memory."""
    checks, user = doors.checks, User(doors.alice)
    user.send(FETCH)
    got = b""
    for number in range(3):
        got += user.stream.recv(1)
        time.sleep(1)
        doors.others_are_answered(f"byte {number} of a long reply")
    home, process = doors.world.path(), user.process.pid
    links = [os.readlink(entry.path) for entry in os.scandir(f"/proc/{process}/fd")]
    held = [link for link in links if link.startswith(home) and link.endswith(" (deleted)")]
    checks.same("the reply is in a file without a name", 1, len(held))
    with open(f"/proc/{process}/status", encoding="ascii") as file:
        (peak,) = [int(row.split()[1]) * 1024 for row in file if row.startswith("VmHWM:")]
    checks.same("and not in memory", True, peak < len(doors.long))
    left, *ended = user.end()
    checks.same("a long reply, byte by byte", (doors.long, 0, b""), (got + left, *ended))
    checks.same("nothing is left in the folder", [], [name for name in os.listdir(home) if name.startswith(("tmp", "#"))])


def show_patience(checks, program, folder):
    """Who stops in a frame or in a reply is let go after a while, and who asks nothing is not. Meanwhile two work."""
    doors = Doors(checks, program, folder)
    begun = time.monotonic()
    stops = {"in a line": QUOTA[:4], "in a frame": QUOTA[:-3], "in a reply": FETCH}
    users = {label: User(doors.alice) for label in stops}
    for label, given in stops.items():
        users[label].send(given)
    idle = User(doors.alice)
    checks.same("one asks, and no more", doors.quota, idle.told(QUOTA))
    show_two(doors)
    checks.same("meanwhile they are there", [None] * 3, [user.process.poll() for user in users.values()])
    for label, user in users.items():
        over(user.process)
        got = to_end(user.stream)
        is_begin = doors.long.startswith(got) and (len(got) > 0) == (label == "in a reply")
        status, said = user.ended()
        checks.same(f"who stops {label} is let go", (True, -signal.SIGALRM, b""), (is_begin, status, said))
    checks.same("after a while", True, time.monotonic() - begun >= CUT)
    checks.same("who asked nothing asks again", doors.quota, idle.told(QUOTA))
    checks.same("and ends", (b"", 0, b""), idle.end())
    doors.world.host.ends_well(checks, "after those that stop")


def show_two_uploads(checks, program, folder):
    """Two users of one tenant push in parts at once: one waits for the other, and not for one who only asks."""
    doors = Doors(checks, program, folder)
    world, url = doors.world, f"forkhost::{doors.alice.path}/alice/r"
    for name in ("one", "two"):
        great(world, name, random.Random(name), count=5)
    pushes = [world.begun("git", "push", "-q", url, name, at="source") for name in ("one", "two")]
    checks.same("both push", [0, 0], [finished(push).status for push in pushes])
    checks.same("both are there", world.references("source"), world.kept("r")[:3])
    user, other = User(doors.alice), User(doors.alice)
    part, done = frame(b"alice", b"part\nx"), framed(b"ok\n")
    checks.same("one begins an upload", done, user.told(part))
    other.send(frame(b"alice", b"part-drop\n"))
    checks.same("and asks something between", doors.at_socket(QUOTA), user.told(QUOTA))
    doors.others_are_answered("an upload is open")
    checks.same("and goes on", done, user.told(part))
    checks.same("another waits", [], select.select([other.stream], [], [], 0.5)[0])
    checks.same("it is left open", (b"", 0, b""), user.end())
    checks.same("and the other drops it", done, other.reply())
    checks.same("which ends", (b"", 0, b""), other.end())
    world.host.ends_well(checks, "after two uploads")


def show_two(doors):
    """Two users by turns: each gets their own replies, whole and in order."""
    checks, turns = doors.checks, 50
    alice, bob = User(doors.alice), User(doors.bob, b"alice")
    alice.stream.settimeout(PATIENCE / 2)
    asked = frame(b"bob", b"quota\n")
    told = [(alice.told(QUOTA), bob.told(asked)) for _ in range(turns)]
    checks.same("by turns", {(doors.quota, doors.at_socket(asked))}, set(told))
    other = User(doors.alice)
    for user in (alice, other):
        user.send(FETCH)
    got = {alice: b"", other: b""}
    while any(len(one) < len(doors.long) for one in got.values()):
        for user in got:
            got[user] += user.reader.read(min(1_000_000, len(doors.long) - len(got[user])))
    checks.same("both have a long reply", [doors.long] * 2, list(got.values()))
    alice.send(QUOTA * 300)
    checks.same("many at once", [doors.quota] * 300, [alice.reply() for _ in range(300)])
    checks.same("they end", [(b"", 0, b"")] * 3, [user.end() for user in (alice, bob, other)])
