"""A host on a small disk that a tenant fills."""
import contextlib
import os
import random
import subprocess
import time

from lib.folder import Folder
from lib.frames import frame, framed, replies
from lib.live import Serving
from lib.objects import name_of, record
from lib.program import done, ended, sound
from lib.waiting import until

ALICE, BOB, HOST = b"alice", b"bob", b"@host"
TENANTS = ["alice=1000000000", "bob=1000000"]
OK, STORE = b"ok\n", b"host store\n"
# What a reserve has, and what more is free when it is made.
RESERVE, BESIDE = 64 << 20, 8 << 20
WHOLE, GIVEN_BACK = (RESERVE, True, 0o600), (0, True, 0o600)
# Between two tries to make it again, and some more.
PAUSE = 1.2
# How many requests the others send on the full disk, each on a connection of its own.
MANY = 80
WAYS = {"in turn": [], "at once": ["--at-once", "8"], "synced": ["--sync", "--at-once", "8"]}


@contextlib.contextmanager
def disk(program, work, length):
    """A file system of this length, at a path of its own, for as long as hosts on it run."""
    path = os.path.join(work, "disk")
    os.makedirs(path)
    subprocess.run(["mount", "-t", "tmpfs", "-o", f"size={length}", "none", path], check=True)
    try:
        yield path
    finally:
        program.stop()
        subprocess.run(["umount", path], check=True)


def free(path):
    found = os.statvfs(path)
    return found.f_bavail * found.f_frsize


def fill(path, left=0):
    """Takes all room of a disk but this much, in a file of its own."""
    with open(path, "wb", buffering=0) as file, contextlib.suppress(OSError):
        while (room := free(os.path.dirname(path)) - left) > 0:
            file.write(bytes(min(room, 1 << 20)))


def held(folder):
    """How long the reserve is, whether it has all its blocks, and its mode, if it exists."""
    if not os.path.exists(folder.inside("reserve")):
        return None
    found = os.stat(folder.inside("reserve"))
    return found.st_size, found.st_blocks * 512 >= found.st_size, found.st_mode & 0o777


def told(folder, text):
    """A line on standard error about the reserve of this folder."""
    return b"forkhost: " + text.replace("PATH", folder.inside("reserve")).encode() + b"\n"


GIVEN = "no room, so PATH is given back, and no objects are stored"
AGAIN = "PATH is made again, and objects are stored"
STAYS = "PATH cannot be made again, so no objects are stored"
NONE = "PATH cannot be made"


class Filled:
    """A host whose disk a tenant fills, and what it has acknowledged."""

    def __init__(self, checks, program, folder, work, words):
        self.checks, self.program, self.folder, self.words = checks, program, folder, words
        self.path, self.chance, self.objects, self.places = os.path.join(work, "socket"), random.Random(7), {}, []

    def start(self, *tenants):
        if os.path.lexists(self.path):
            os.remove(self.path)
        self.serving = Serving(self.program, self.path, 1_000_000, "--dir", self.folder.path, *self.words, *tenants)

    def asked(self, who, payload):
        """The one reply, or nothing if the host does not answer."""
        with contextlib.suppress(OSError):
            return (replies(self.serving.told(frame(who, payload)))[0] or [b""])[0]
        return b""

    def pushed(self, length):
        """The reply to a push of a random blob."""
        content = self.chance.randbytes(length)
        reply = self.asked(ALICE, b"push r\n\n" + record(b"blob", content))
        if reply == OK:
            self.objects[name_of(b"blob", content)] = content
        return reply

    def fill(self, label):
        """The tenant stores all that goes in, down to the last bytes; then the others want some of the journal."""
        for length in (1_000_000, 30_000, 2_000):
            for _ in range(100_000):
                if (reply := self.pushed(length)) != OK:
                    break
            self.checks.same(f"{label}: there is no room for {length} bytes more", STORE, reply)

    def others(self, label, count):
        """Requests that store no object are answered as ever."""
        wrong = []
        for number in range(count):
            place = b"p%d" % len(self.places)
            reply = self.asked(BOB, b"init %s\n" % place)
            self.places += [place] if reply == OK else []
            moved = b"update-refs b\ncreate refs/tags/%s %s\n" % (place, name_of(b"blob", b"bob's"))
            seen = [reply, self.asked(BOB, moved)]
            seen += [self.asked(BOB, b"cat-file %s\n" % name_of(b"blob", b"bob's")), self.asked(ALICE, b"quota\n")[:3]]
            wanted = [OK, OK, OK + record(b"blob", b"bob's"), OK]
            wrong += [(number, seen)] if seen != wanted else []
            if not seen[0]:
                break
        self.checks.same(f"{label}: {count} turns of others", [], wrong[:3])

    def refused(self, label):
        """No object is stored, by any tenant or in any way."""
        blob = record(b"blob", b"small")
        found = [self.asked(who, b"push %s\n\n" % place + blob) for who, place in ((ALICE, b"r"), (BOB, b"b"))]
        found += [self.asked(BOB, b"part\n\n" + blob)]
        self.checks.same(f"{label}: nothing is stored", [STORE] * 3, found)

    def whole(self, label):
        """All that was acknowledged is there."""
        lost = [name for name, content in self.objects.items() if self.asked(ALICE, b"cat-file %s\n" % name) != OK + record(b"blob", content)]
        self.checks.same(f"{label}: {len(self.objects)} objects", [], lost[:3])
        repos = self.asked(BOB, b"repos\n")[len(OK) :].split()
        self.checks.same(f"{label}: repositories", sorted([b"b", *self.places]), repos)
        tags = self.asked(BOB, b"for-each-ref b\n")[len(OK) :].splitlines()
        self.checks.same(f"{label}: references", len(self.places), len(tags))

    def killed(self, label, *lines):
        """What it has said by the time it is killed."""
        gone = self.serving.child.poll()
        self.serving.child.kill()
        ran = ended(self.serving.child)
        self.checks.same(f"{label}: it served until it was killed", None, gone)
        self.checks.same(f"{label}: standard error", b"".join(told(self.folder, line) for line in lines), ran.fault)


def show_filled(checks, program, work):
    for way, words in WAYS.items():
        place = os.path.join(work, way)
        os.mkdir(place)
        with disk(program, place, 150 << 20) as path:
            show_one(Filled(checks, program, Folder(os.path.join(path, "host")), place, words), path, way)


def show_one(host, path, way):
    checks, folder = host.checks, host.folder
    # Something beside the host, which is removed later.
    with open(os.path.join(path, "beside"), "wb") as file:
        file.write(bytes(12 << 20))
    host.start(*TENANTS)
    checks.same(f"{way}: a reserve with all its blocks", WHOLE, held(folder))
    checks.same(f"{way}: repositories", [OK, OK], [host.asked(ALICE, b"init r\n"), host.asked(BOB, b"init b\n")])
    checks.same(f"{way}: an object of another", OK, host.asked(BOB, b"push b\n\n" + record(b"blob", b"bob's")))
    host.fill(way)
    host.others(way, MANY)
    if host.serving.child.poll() is not None:
        checks.same(f"{way}: it serves on", None, ended(host.serving.child))
        return
    checks.same(f"{way}: the reserve is given back", GIVEN_BACK, held(folder))
    host.refused(way)
    time.sleep(PAUSE)
    host.others(f"{way}, later", MANY)
    host.refused(f"{way}, later")
    host.killed(way, GIVEN)

    checks.same(f"{way}: check passes the full disk", b"sound\n", program_checked(host))
    host.start()
    host.others(f"{way}, started on the full disk", MANY)
    host.refused(f"{way}, started on the full disk")
    host.whole(f"{way}, started on the full disk")
    checks.same(f"{way}: the reserve stays given back", GIVEN_BACK, held(folder))

    os.remove(os.path.join(path, "beside"))
    checks.same(f"{way}: the reserve is made again", True, is_made_again(host))
    checks.same(f"{way}: a push with free space", OK, host.pushed(5000))
    checks.same(f"{way}: a part with free space", OK, host.asked(BOB, b"part\n\n" + record(b"blob", b"new")))
    checks.same(f"{way}: the end of it", OK, host.asked(BOB, b"part-end b\n"))
    checks.same(f"{way}: the reserve is whole again", WHOLE, held(folder))
    checks.same(f"{way}: room beside it", True, free(path) > BESIDE // 2)
    host.killed(f"{way}, with free space", STAYS, AGAIN)

    os.truncate(folder.inside("reserve"), RESERVE + BESIDE)
    host.start()
    host.whole(f"{way}, after a kill while the reserve was made")
    checks.same(f"{way}: it is made", WHOLE, held(folder))
    host.killed(f"{way}, after a kill while the reserve was made")
    made = os.stat(folder.inside("reserve"))
    host.start()
    host.whole(f"{way}, at last")
    checks.same(f"{way}: the reserve is kept", WHOLE, held(folder))
    checks.same(f"{way}: and is not written again", made.st_mtime_ns, os.stat(folder.inside("reserve")).st_mtime_ns)
    host.killed(f"{way}, at last")
    checks.same(f"{way}: a tenant is added beside a reserve", done(), host.program.ran("add-tenant", "--dir", folder.path, "carol=1"))
    checks.same(f"{way}: and check passes it", sound(), host.program.checked(folder.path))


def program_checked(host):
    return host.program.checked(host.folder.path).output


def is_made_again(host):
    """Whether the reserve is whole again, which takes 16 seconds at most after there is room. The host tries if it is asked."""
    return until(lambda: host.asked(BOB, b"quota\n")[:3] == OK and held(host.folder) == WHOLE)


def begun(checks, program, path, work):
    """A host at once for all, with a repository of each tenant, and an object of the one that does not fill the disk."""
    host = Filled(checks, program, Folder(os.path.join(path, "host")), work, ["--at-once", "8"])
    host.start(*TENANTS)
    checks.same("repositories", [OK, OK], [host.asked(ALICE, b"init r\n"), host.asked(BOB, b"init b\n")])
    checks.same("an object", OK, host.asked(BOB, b"push b\n\n" + record(b"blob", b"bob's")))
    return host


def show_full_start(checks, program, work):
    """The disk is full before a start, and the reserve is all the room that its first saving has."""
    with disk(program, work, 120 << 20) as path:
        host = begun(checks, program, path, work)
        host.killed("before the disk is full")
        fill(os.path.join(path, "beside"))
        checks.same("the disk is full", 0, free(path))
        host.start()
        host.others("a start that takes the reserve", 20)
        host.refused("a start that takes the reserve")
        checks.same("it is given back", GIVEN_BACK, held(host.folder))
        os.remove(os.path.join(path, "beside"))
        checks.same("the reserve is made again", True, is_made_again(host))
        checks.same("a push with free space", OK, host.pushed(5000))
        host.killed("a start that takes the reserve", GIVEN, AGAIN)


def show_swept(checks, program, work):
    """What fills the disk is nobody's any more, and is collected: then there is room again."""
    with disk(program, work, 150 << 20) as path:
        host = begun(checks, program, path, work)
        host.fill("to be swept")
        host.others("to be swept", 20)
        checks.same("a prune", OK, host.asked(ALICE, b"prune\n"))
        checks.same("a collection", OK, host.asked(HOST, b"collect\n")[:3])
        checks.same("the reserve is made again", True, is_made_again(host))
        checks.same("a push after it", OK, host.pushed(5000))
        checks.same("the reserve is whole again", WHOLE, held(host.folder))
        host.objects = {name: content for name, content in host.objects.items() if len(content) == 5000}
        host.others("after the sweep", 20)
        host.whole("after the sweep")
        host.killed("after the sweep", GIVEN, AGAIN)
        checks.same("check", b"sound\n", program_checked(host))


def show_small(checks, program, work):
    """Too small a disk for a reserve, and commands that make none."""
    with disk(program, work, 40 << 20) as path:
        host = Filled(checks, program, Folder(os.path.join(path, "host")), work, [])
        host.start(*TENANTS)
        checks.same("repositories", [OK, OK], [host.asked(ALICE, b"init r\n"), host.asked(BOB, b"init b\n")])
        checks.same("an object", OK, host.pushed(5000))
        checks.same("nothing is left of a reserve", ["journal", "lock", "objects", "state", "swept"], sorted(os.listdir(host.folder.path)))
        host.killed("a small disk", NONE)
        given = b"".join(frame(ALICE, b"init q%d\n" % number) for number in range(3))
        checks.same("a session of run", done(framed(OK) * 3), program.ran("run", "--dir", host.folder.path, given=given))
        checks.same("check", sound(), program.checked(host.folder.path))
        checks.same("they make none", False, os.path.lexists(host.folder.inside("reserve")))


def pipe(path, beside):
    os.mkfifo(path)


# What may stand in the place of a reserve, and is no file of the host's own.
ALIENS = {"a link": lambda path, beside: os.symlink(beside, path), "another name": lambda path, beside: os.link(beside, path), "a pipe": pipe}


def show_alien_reserves(checks, program, work):
    """What is no file of the host's own in the place of a reserve stays as it is, and the host serves without one."""
    for name in ("reserve", "reserve.part"):
        for label, put in ALIENS.items():
            place = os.path.join(work, f"{name} {label}")
            os.makedirs(kept := os.path.join(place, "host"), 0o700)
            with open(beside := os.path.join(place, "beside"), "wb") as file:
                file.write(b"beside")
            put(there := os.path.join(kept, name), beside)
            before = os.lstat(there).st_mode, os.lstat(there).st_ino
            host = Filled(checks, program, Folder(kept), place, [])
            host.start(*TENANTS)
            checks.same(f"{name}, {label}: a repository", OK, host.asked(ALICE, b"init r\n"))
            host.killed(f"{name}, {label}", NONE)
            checks.same(f"{name}, {label}: it stays", before, (os.lstat(there).st_mode, os.lstat(there).st_ino))
            with open(beside, "rb") as file:
                checks.same(f"{name}, {label}: what it leads to", b"beside", file.read())


def show_full_logs(checks, program, work):
    """There is no room for a log of uploads: it takes the reserve. Where there is none, serving may end, and nothing is lost."""
    for label, length in (("a reserve", 120 << 20), ("no reserve", 40 << 20)):
        os.mkdir(place := os.path.join(work, label.replace(" ", "-")))
        with disk(program, place, length) as path:
            host = Filled(checks, program, Folder(os.path.join(path, "host")), place, [])
            host.start(*TENANTS)
            checks.same("repositories", [OK, OK], [host.asked(ALICE, b"init r\n"), host.asked(BOB, b"init b\n")])
            checks.same("an object", OK, host.asked(BOB, b"push b\n\n" + record(b"blob", b"bob's")))
            host.others(label, 2)
            show_full_log(host, label, path)


def show_full_log(host, label, path):
    """An upload comes, a part of it in a log; then the disk is full but for less than the rest."""
    checks, blobs = host.checks, [(b"blob", host.chance.randbytes(400_000)) for _ in range(6)]
    body = b"\n" + b"".join(record(*blob) for blob in blobs)
    checks.same(f"{label}: an upload", {OK}, {host.asked(ALICE, b"part\n" + body[at : at + 400_000]) for at in range(0, len(body), 400_000)})
    checks.same(f"{label}: what is to be swept", [OK] * 2, [host.asked(BOB, b"push b\n\n" + record(b"blob", b"spare")), host.asked(BOB, b"prune\n")])
    fill(os.path.join(path, "beside"), 1 << 19)
    checks.same(f"{label}: it is swept", b"ok\n1\n", host.asked(HOST, b"collect\n"))
    if label == "a reserve":
        host.others(f"{label}, with a log", 20)
        checks.same(f"{label}: it is given back", GIVEN_BACK, held(host.folder))
        checks.same(f"{label}: a log has the upload", True, len(host.folder.uploads()) >= len(body))
        host.killed(label, GIVEN)
    else:
        host.serving.child.kill()
        ended(host.serving.child)
    checks.same(f"{label}: check", sound(host.folder.again()), host.program.checked(host.folder.path))
    os.remove(os.path.join(path, "beside"))
    host.start()
    host.others(f"{label}, again", 2)
    checks.same(f"{label}: the upload goes on", OK, host.asked(ALICE, b"part-end r\n"))
    host.objects = {name_of(*blob): blob[1] for blob in blobs}
    host.whole(f"{label}, at last")
