"""When a socket has its place, and the folder beside it in which it is made."""
import os
import threading
import time

from folders.clients import ALICE, BOB
from folders.sockets import mode, one, one_refused, serves, stale
from folders.state_text import Tenant, spelled
from lib.folder import Folder, content, write
from lib.program import PATIENCE, failed

STARTS = 30


def show_saved_first(checks, program, folder):
    """Whoever can connect is served: a state that a start makes is saved before its socket is there."""
    path, early = os.path.join(folder, "socket"), []
    for number in range(STARTS):
        kept = Folder(os.path.join(folder, str(number)))
        watch = threading.Thread(target=watch_state, args=(path, kept, early))
        watch.start()
        serving = one(program, path, "--dir", kept.path)
        watch.join()
        serves(checks, f"start {number}", serving)
    checks.same("sockets that were there before their host was saved", [], early)


def watch_state(path, kept, early):
    """Notes what the folder lacks at the moment in which the socket is there."""
    end = time.monotonic() + PATIENCE
    while not os.path.lexists(path) and time.monotonic() < end:
        pass
    if kept.state() is None or not os.path.exists(kept.journal_path()):
        early.append(kept.path)


def show_unsaved(checks, program, folder):
    """If a socket cannot be bound, nothing was saved, and no socket is left."""
    path, kept = os.path.join(folder, "socket"), Folder(os.path.join(folder, "kept"))
    write(path, b"kept")
    checks.same("a file is there", failed("socket"), one_refused(program, path, "--dir", kept.path))
    checks.same("no state", None, kept.state())
    checks.same("the file stays", b"kept", content(path))
    os.remove(path)
    serving = one(program, path, "--dir", kept.path)
    text = spelled([Tenant(ALICE, 100000000, [], []), Tenant(BOB, 1000, [], [])])
    checks.same("the state of the next start", text, kept.state())
    serves(checks, "the next start", serving)


def show_rooms(checks, program, folder):
    """The folder in which a socket is made is a real one of the own user, and nothing but a socket is removed of it."""
    path = os.path.join(folder, "socket")
    room = path + ".lock"
    other = os.path.join(folder, "other")
    os.mkdir(other, 0o755)
    write(os.path.join(other, "s"), b"kept")
    refused = lambda label: checks.same(f"a socket beside {label}", failed("socket"), one_refused(program, path))

    os.symlink(other, room)
    refused("a link to a folder")
    checks.same("the link stays", other, os.readlink(room))
    checks.same("the folder's mode stays", 0o755, mode(other))
    checks.same("its file stays", b"kept", content(os.path.join(other, "s")))
    os.remove(room)

    os.symlink(os.path.join(folder, "nowhere"), room)
    refused("a link to nothing")
    checks.same("nothing is made after it", False, os.path.lexists(os.path.join(folder, "nowhere")))
    os.remove(room)

    write(room, b"kept")
    refused("a file")
    checks.same("that file stays", b"kept", content(room))
    os.remove(room)

    os.mkdir(room, 0o755)
    write(os.path.join(room, "s"), b"kept")
    refused("a folder with a file in the socket's place")
    checks.same("it stays", (b"kept", 0o755), (content(os.path.join(room, "s")), mode(room)))
    os.remove(os.path.join(room, "s"))
    write(os.path.join(room, "t"), b"kept")
    stale(os.path.join(room, "s"))
    serves(checks, "beside an own folder, and a socket that was left in it", one(program, path))
    checks.same("what else is in it stays", b"kept", content(os.path.join(room, "t")))
    checks.same("its mode", 0o700, mode(room))

    if os.geteuid() == 0:
        os.chown(room, 12345, 12345)
        os.chmod(room, 0o755)
        refused("another user's folder")
        checks.same("its mode and owner stay", (0o755, 12345), (mode(room), os.lstat(room).st_uid))
    checks.same("no socket is left", False, os.path.lexists(path))
