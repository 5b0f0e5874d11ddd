"""The file of a socket, what may be at its path, and the state that is saved after the last connection."""
import os
import socket
import stat
import threading

from folders.cases import B, D, FILES, OBJECTS, alone
from folders.clients import ALICE, BOB, PUSH, QUOTA, TENANTS, TOLD
from folders.state_text import Tenant, spelled
from lib.folder import Folder, content, requests_in, write
from lib.frames import frame, framed, frames
from lib.live import Live, Serving
from lib.objects import record
from lib.program import done, failed, sound


def mode(path):
    return stat.S_IMODE(os.lstat(path).st_mode)


def one(program, path, *words):
    """A process of `serve` for one connection."""
    return Serving(program, path, 1, *TENANTS, *words)


def serves(checks, label, serving):
    checks.same(f"{label}: it serves", TOLD, serving.told(QUOTA))
    checks.same(f"{label}: its end", done(), serving.ended())
    checks.same(f"{label}: the socket is gone", False, os.path.lexists(serving.path))


def show_modes(checks, program, folder):
    """Nobody else may connect, whatever the process's mask is; and not for a moment."""
    path, old = os.path.join(folder, "socket"), os.umask(0)
    try:
        for mask in (0, 0o22, 0o77):
            os.umask(mask)
            seen, ended = set(), threading.Event()
            watch = threading.Thread(target=watch_modes, args=(path, seen, ended))
            watch.start()
            serving = one(program, path)
            checks.same(f"the mode under the mask {mask:o}", 0o600, mode(path))
            checks.same("it is a socket", True, stat.S_ISSOCK(os.lstat(path).st_mode))
            ended.set()
            watch.join()
            checks.same(f"all modes that were seen under {mask:o}", set(), seen - {0o600})
            serves(checks, f"under the mask {mask:o}", serving)
    finally:
        os.umask(old)


def watch_modes(path, seen, ended):
    while not ended.is_set():
        try:
            seen.add(mode(path))
        except FileNotFoundError:
            pass


def stale(path):
    """A socket's file that nobody listens on."""
    with socket.socket(socket.AF_UNIX) as stream:
        stream.bind(path)


def show_files(checks, program, folder):
    path = os.path.join(folder, "socket")
    for mask in (0o777, 0o600):
        stale(path)
        os.chmod(path, mask)
        serving = one(program, path)
        checks.same("the mode of one that is replaced", 0o600, mode(path))
        serves(checks, "a socket that nobody listens on is replaced", serving)
    serving = one(program, path)
    serving.child.kill()
    checks.same("one that is killed", -9, serving.ended().status)
    serves(checks, "the socket of one that was killed", one(program, path))
    with socket.socket(socket.AF_UNIX) as other:
        other.bind(path)
        other.listen(4)
        checks.same("one that another program listens on", failed("socket"), one_refused(program, path))
        checks.same("it stays", True, stat.S_ISSOCK(os.lstat(path).st_mode))
    os.remove(path)
    first = one(program, path)
    for _ in range(3):
        checks.same("one that a host listens on", failed("socket"), one_refused(program, path))
    serves(checks, "the first one takes no harm", first)


def one_refused(program, path, *words):
    return program.ran("serve", "--socket", path, "--connections", "1", *TENANTS, *words)


def show_faults(checks, program, folder):
    """What is not a socket stays as it is, and a path at which none can be made is reported."""
    inside = lambda name: os.path.join(folder, name)
    write(inside("file"), b"kept")
    os.mkdir(inside("folder"))
    os.symlink(inside("nowhere"), inside("link"))
    for name in ("file", "folder", "link", "absent/socket", "file/socket", "s" * 200):
        checks.same(f"a socket at {name[:20]}", failed("socket"), one_refused(program, inside(name)))
    checks.same("the file stays", b"kept", content(inside("file")))
    checks.same("the link stays", inside("nowhere"), os.readlink(inside("link")))
    checks.same("nothing is made after it", False, os.path.lexists(inside("nowhere")))
    kept = Folder(inside("kept"))
    checks.same("a start", done(), program.ran("run", "--dir", kept.path, "alice=7"))
    state = kept.state()
    serving = one_refused(program, inside("file"), "--dir", inside("other"))
    checks.same("a socket that can't be bound, over a folder", failed("socket"), serving)
    checks.same("it saves nothing", False, os.path.exists(inside("other/state")))
    words = ["serve", "--socket", inside("file"), "--connections", "1", "--dir", kept.path, "alice=8"]
    there = failed("tenant alice is there already")
    checks.same("the tenants are judged before the socket", there, program.ran(*words))
    checks.same("the state stays", state, kept.state())
    kept.set_state(b"x")
    checks.same("the state is judged before them", failed("state line 1"), program.ran(*words))
    at = ["--socket", inside("s")]
    counts = [[*at, "--connections", count] for count in ("x", "-1", "0", "1000001")]
    for words in ([], ["--connections", "1"], at, *counts):
        checks.same(f"serve {words}", (2, b""), program.ran("serve", *words)[:2])
    checks.same("none of these makes a socket", False, os.path.lexists(inside("s")))


def show_saved(checks, program, folder):
    """The state is saved before the first connection and after the last; between them a journal has what they did."""
    kept, path = Folder(os.path.join(folder, "kept")), os.path.join(folder, "socket")
    serving = Serving(program, path, 4, "--dir", kept.path, "alice=10000")
    checks.same("a push", framed(b"ok\n") * 2, serving.told(frames([(ALICE, b"init r\n"), (ALICE, PUSH)])))
    checks.same("another session's part", framed(b"ok\n"), serving.told(frame(ALICE, b"part\n")))
    told = serving.told(frame(ALICE, b"part\n") + b"alice 9\n")
    checks.same("one that goes in a frame", framed(b"ok\n") + b"! bad-frame\n", told)
    checks.same("the state before the end", spelled([Tenant(ALICE, 10000, [], [])]), kept.state())
    checks.same("the journal after it", 4, len(requests_in(kept.journal())))
    checks.same("the folder is held", failed("store"), program.ran("run", "--dir", kept.path))
    checks.same("the upload is the tenant's", framed(b"no upload-open\n"), serving.told(frame(ALICE, b"push r\n\n")))
    checks.same("the end", done(), serving.ended())
    checks.same("the state", alone(OBJECTS, (b"refs/heads/main", D)), kept.state())
    checks.same("the files", FILES, kept.files())
    checks.same("check", sound(), program.checked(kept.path))
    live = Live(program, "--dir", kept.path, "bob=1000")
    checks.same("what was pushed, in a run", b"ok\n" + record(*OBJECTS[B]), live.asked(ALICE, b"cat-file %s\n" % B))
    checks.same("the upload ended with it", b"no no-upload\n", live.asked(ALICE, b"part-drop\n"))
    checks.same("one tenant more", b"ok\n0 1000\n", live.asked(BOB, b"quota\n"))
    checks.same("the end of the run", done(), live.ended())
    serving = Serving(program, path, 1, "--dir", kept.path)
    checks.same("the tenant that was added", TOLD, serving.told(QUOTA))
    checks.same("the last end", done(), serving.ended())
