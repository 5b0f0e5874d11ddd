"""A host that ends while a door asks it or hands out its reply, replies that are cut, and a door without space."""
import socket
import threading

from client.cut_off import CUTS
from client.doors import FETCH, QUOTA, Doors, User
from lib.frames import frame
from lib.watching import Watcher

LOST = b"forkhost-door: the host ended the connection\n"
UNREAD = b"forkhost-door: this is not a reply of a forkhost\n"
# What is said of replies that are not whole. Others pass as they are.
SAID = dict.fromkeys(["no reply", "the length alone", "all but a byte", "half"], LOST)
SAID |= dict.fromkeys(["a part of the length", "garbage", "a length with zeros"], UNREAD)
SAID["a bad frame"] = b"forkhost-door: the host reported a bad frame and ended the connection\n"


class HangsUp:
    """A socket that takes connections and reads nothing of them."""

    def __init__(self, path):
        self.path, self.listener = path, socket.socket(socket.AF_UNIX)
        self.listener.bind(path)
        self.listener.listen(5)
        threading.Thread(target=self.serve, daemon=True).start()

    def serve(self):
        while True:
            try:
                self.listener.accept()[0].close()
            except OSError:
                return


def show_door_ends(checks, program, folder):
    """What is not whole is not handed out, and what is there whole is, whatever becomes of the host."""
    doors = Doors(checks, program, folder)
    show_cut_replies(doors)
    show_no_room(doors)
    show_host_ends(doors)
    show_connections(doors)
    doors.world.host.ends_well(checks, "after doors that end")


def show_cut_replies(doors):
    at = {}
    watcher = Watcher(doors.world.path("cuts"), doors.world.host.socket, lambda line, reply: at["way"](reply))
    door = doors.door("alice", "cut", watcher.path)
    for label, (way, _) in CUTS.items():
        at["way"] = way
        user = User(door)
        user.send(QUOTA)
        wanted = (b"", 2, SAID[label]) if label in SAID else (way(doors.quota), 0, b"")
        doors.checks.same(f"cut: {label}", wanted, user.end())
    door = doors.door("alice", "hung", HangsUp(doors.world.path("hangs")).path)
    user = User(door)
    user.send(frame(b"alice", b"part\n" + bytes(1_000_000)))
    left, status, said = user.end()
    doors.checks.same("the host hangs up before a frame", (b"", 2, LOST[:-1]), (left, status, said[: len(LOST) - 1]))


def show_connections(doors):
    """Each frame has a connection of its own, also those of a push in parts."""
    world, watcher = doors.world, Watcher(doors.world.path("counted"), doors.world.host.socket)
    door = doors.door("alice", "counts", watcher.path)
    world.init("alice", "s")
    world.output("source", "commit", "-q", "--allow-empty", "-m", "more")
    ran = world.git("source", "push", "-q", f"forkhost::{door.path}/alice/s", "main")
    world.succeeds("a push of what is there", ran)
    doors.checks.same("it is there", world.references("source")[0], world.kept("s")[0])
    asked = watcher.taken()
    doors.checks.same("a connection each", len(asked), len({one.connection for one in asked}))


def show_no_room(doors):
    """A reply that finds no room ends its own door alone."""
    user = User(doors.door("alice", "small", before="ulimit -f 2000; exec "))
    doors.checks.same("what is short has room", doors.quota, user.told(QUOTA))
    user.send(FETCH)
    said = b"forkhost-door: a reply cannot be kept: File too large\n"
    doors.checks.same("no room", (b"", 2, said), user.end())
    doors.others_are_answered("no room")


def show_host_ends(doors):
    world, checks = doors.world, doors.checks
    reading, asking, other = (User(doors.alice) for _ in range(3))
    for user in (asking, other):
        checks.same("they ask", doors.quota, user.told(QUOTA))
    reading.send(FETCH)
    first = reading.stream.recv(1)
    world.host.kill()
    left, *ended = reading.end()
    checks.same("a reply that is there is handed out", (doors.long, 0, b""), (first + left, *ended))
    asking.send(QUOTA)
    checks.same("nobody is there", (b"", 2, b"forkhost-door: the host cannot be reached\n"), asking.end())
    world.host.begin()
    user = User(doors.door("alice", "nowhere", world.path("no", "socket")))
    user.send(frame(b"alice", b"part\n"))
    checks.same("not even its folder is there", (b"", 2, b"forkhost-door: the host cannot be reached\n"), user.end())
    checks.same("the next host answers", doors.quota, other.told(QUOTA))
    checks.same("it ends", (b"", 0, b""), other.end())
