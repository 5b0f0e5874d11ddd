"""What was swept: when it is back in its place, and when it is let go."""
import os
import shutil

from folders.cases import B, C, FILES, O, OBJECTS
from folders.devices import ALICE, PUSH, SAVED
from folders.killing import HOST, one_told
from lib.folder import Folder, write
from lib.frames import framed, frames
from lib.live import Live, Serving
from lib.objects import record
from lib.program import done, failed, sound

QUOTA = frames([(ALICE, b"quota\n")])
OTHERS = ["part", "readme", "0" * 63, "0" * 65, "A" * 64, b"\xff"]


def show_swept(checks, program, work):
    folder = Folder(os.path.join(work, "kept"))
    pushed = frames([(ALICE, b"init r\n"), (ALICE, PUSH)])
    checks.same("the session before", 0, program.ran("run", "--dir", folder.path, "alice=10000", given=pushed).status)
    show_put_back(checks, program, folder)
    show_newer(checks, program, folder)
    show_others(checks, program, folder)
    show_let_go(checks, program, folder)
    show_connections(checks, program, folder, work)
    show_unsaved(checks, program, folder)


def is_back(checks, label, program, folder):
    checks.same(f"{label}: check", sound(folder.again()), program.checked(folder.path))
    checks.same(f"{label}: its files", FILES, folder.files())
    checks.same(f"{label}: none is swept", [], folder.swept())


def show_put_back(checks, program, folder):
    """Each file alone, and all of them, also where nothing is left of their folders."""
    for name in FILES:
        folder.sweep(name)
        is_back(checks, "one was swept", program, folder)
    for name in FILES:
        folder.sweep(name)
    shutil.rmtree(folder.inside("objects"))
    is_back(checks, "all were swept", program, folder)
    folder.sweep(C)
    asked = frames([(ALICE, b"cat-file %s\n" % C)])
    ran = program.ran("run", "--dir", folder.path, given=asked)
    checks.same("a start", done(framed(b"ok\n" + record(*OBJECTS[C]))), ran)
    is_back(checks, "after a start", program, folder)


def show_newer(checks, program, folder):
    """A swept file never takes the place of a whole one; it does of one that is torn; and one that is spoiled is found so."""
    os.makedirs(folder.inside("swept"), exist_ok=True)
    for data in (b"", FILES[O], FILES[B]):
        write(folder.swept_path(B), data)
        is_back(checks, "a newer file is there", program, folder)
    for torn in (b"", FILES[B][:-1], FILES[O]):
        write(folder.swept_path(B), FILES[B])
        write(folder.file_of(B), torn)
        is_back(checks, "a newer file is torn", program, folder)
    folder.sweep(B)
    write(folder.swept_path(B), FILES[B][:-1])
    checks.same("a swept file is cut", failed(f"damaged {B.decode()}"), program.checked(folder.path))
    folder.keep(B, FILES[B])
    folder.sweep(B)
    os.remove(folder.swept_path(B))
    checks.same("a swept file is gone", failed(f"lost {B.decode()}"), program.checked(folder.path))
    folder.keep(B, FILES[B])


def show_others(checks, program, folder):
    """What is called otherwise is left alone."""
    home = os.fsencode(folder.inside("swept"))
    for name in OTHERS:
        write(os.path.join(home, os.fsencode(name)), b"x")
    os.mkdir(folder.inside("swept", "folder"))
    there = folder.swept()
    checks.same("check", sound(), program.checked(folder.path))
    checks.same("a start", done(), program.ran("run", "--dir", folder.path))
    checks.same("others stay", there, folder.swept())
    checks.same("its files", FILES, folder.files())
    shutil.rmtree(home)


def show_let_go(checks, program, folder):
    """What is swept in a session goes at its end, whether anything else was done or not."""
    for payload in (b"quota\n", b"init s\n", b"drop s\n"):
        live = Live(program, "--dir", folder.path)
        checks.same(repr(payload), True, live.asked(ALICE, payload).startswith(b"ok\n"))
        folder.put(b"blob", b"nobody's")
        (name,) = set(folder.files()) - set(FILES)
        folder.sweep(name)
        checks.same("its end", done(), live.ended())
        is_back(checks, "after the end", program, folder)
    checks.same("its state", SAVED, folder.state())


def show_connections(checks, program, folder, work):
    """What is swept in a connection goes at its end; the state is saved, where anything was done."""
    path = os.path.join(work, "socket")
    for payload, there in ((b"init s\n", True), (b"quota\n", False)):
        name = folder.put(b"blob", b"nobody's")
        serving = Serving(program, path, 2, "--dir", folder.path)
        with serving.client() as stream:
            stream.sendall(QUOTA)
            one_told(stream)
            state = os.lstat(folder.inside("state")).st_ino
            stream.sendall(frames([(HOST, b"collect\n"), (ALICE, payload)]))
            checks.same("it is swept", b"ok\n1\n", one_told(stream))
            checks.same(repr(payload), True, one_told(stream).startswith(b"ok\n"))
            checks.same(f"after {payload!r}: it is kept", [name.decode()], folder.swept())
        serving.told(QUOTA)
        checks.same(f"after {payload!r}: none is swept", [], folder.swept())
        checks.same(f"after {payload!r}: the journal", b"", folder.journal())
        checks.same(f"after {payload!r}: it is saved", there, os.lstat(folder.inside("state")).st_ino != state)
        checks.same("its end", done(), serving.ended())
    serving = Serving(program, path, 2, "--dir", folder.path)
    checks.same("a change", framed(b"ok\n"), serving.told(frames([(ALICE, b"drop s\n")])))
    checks.same("where nothing is swept the state waits", False, folder.journal() == b"")
    serving.told(QUOTA)
    checks.same("the end", done(), serving.ended())
    checks.same("its state", SAVED, folder.state())


def show_unsaved(checks, program, folder):
    """If the state cannot be saved, what was swept stays swept, and it is back after a kill."""
    live = Live(program, "--dir", folder.path)
    checks.same("a change", b"ok\n", live.asked(ALICE, b"init s\n"))
    folder.sweep(B)
    os.mkdir(folder.inside("part"))
    checks.same("its end", failed("state not saved"), live.ended())
    checks.same("it stays swept", [B.decode()], folder.swept())
    os.rmdir(folder.inside("part"))
    is_back(checks, "after a failed saving", program, folder)
    live = Live(program, "--dir", folder.path)
    checks.same("it is read", b"ok\n" + record(*OBJECTS[B]), live.asked(ALICE, b"cat-file %s\n" % B))
    folder.sweep(B)
    live.child.kill()
    live.child.communicate()
    is_back(checks, "after a kill", program, folder)
    shutil.rmtree(folder.path)
