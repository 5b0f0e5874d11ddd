"""A folder that is gone while its host serves: moved, replaced, or on a device that takes nothing more. Or a segment in it."""
import os
import shutil
import subprocess
import time
from contextlib import suppress

from folders.clients import QUOTA, TENANTS, TOLD
from folders.crowded import asked
from lib.folder import Folder
from lib.live import Live, Serving, to_end
from lib.objects import record
from lib.program import done, failed, sound

WAYS = {"at once": ["--at-once", "4"], "at once, synced": ["--at-once", "4", "--sync"]}
# A host looks at its folder again after a second.
SECOND = 1.2


def move(path):
    os.rename(path, path + " moved")


def replace(path):
    move(path)
    shutil.copytree(path + " moved", path)


def answered(stream):
    """What a request is answered, also by a host that has ended before it came."""
    with suppress(OSError):
        stream.sendall(QUOTA)
    return to_end(stream)


class Failing:
    """The program, which can sync the file at a path once, and then no more."""

    def __init__(self, program, path):
        self.program, self.path = program, path

    def begun(self, *words):
        pipe = subprocess.PIPE
        fails = ["-P", self.path, "-e", "trace=fsync", "-e", "inject=fsync:error=EIO:when=2+"]
        child = subprocess.Popen(["strace", "-f", "-qq", "-o", os.devnull, *fails, self.program.path, *words], stdin=pipe, stdout=pipe, stderr=pipe)
        self.program.running.append(child)
        return child


def show_gone_folders(checks, program, work):
    """After its folder was moved or replaced, a host answers nothing."""
    for label, words in WAYS.items():
        for change in (move, replace):
            name, kept = f"{label}, {change.__name__}", os.path.join(work, f"kept {label} {change.__name__}")
            serving = Serving(program, os.path.join(work, "socket"), 2, "--dir", kept, *words, *TENANTS)
            with serving.client() as stream:
                checks.same(f"{name}: before", TOLD, asked(stream))
                time.sleep(SECOND)
                checks.same(f"{name}: a second later", TOLD, asked(stream))
                time.sleep(SECOND)
                change(kept)
                checks.same(f"{name}: after it", b"", answered(stream))
            checks.same(f"{name}: the end", failed("journal not written"), serving.ended())


def show_gone_devices(checks, program, work):
    """With --sync a host whose device takes no write any more answers nothing, also no request that only asks."""
    for label, words in WAYS.items():
        kept = os.path.join(work, f"kept {label}")
        serving = Serving(Failing(program, os.path.join(kept, "lock")), os.path.join(work, "socket"), 1, "--dir", kept, *words, *TENANTS)
        with serving.client() as stream:
            checks.same(f"{label}: before", TOLD, asked(stream))
            time.sleep(SECOND)
            if "--sync" not in words:
                checks.same(f"{label}: a request", TOLD, asked(stream))
            else:
                checks.same(f"{label}: a request", b"", answered(stream))
        wanted = failed("journal not written") if "--sync" in words else done()
        checks.same(f"{label}: the end", wanted, serving.ended())


def show_replaced_folders(checks, program, work):
    """A folder is replaced by a copy, over which another host serves. The first one saves nothing there."""
    kept = os.path.join(work, "folder")
    first = Live(program, "--dir", kept, *TENANTS)
    checks.same("before", b"ok\n", first.asked(b"alice", b"init r\n"))
    replace(kept)
    second = Live(program, "--dir", kept)
    checks.same("over the copy", b"ok\n", second.asked(b"alice", b"init s\n"))
    checks.same("over what was moved", b"ok\n", first.asked(b"alice", b"init t\n"))
    checks.same("the first one's end", failed("state not saved"), first.ended())
    checks.same("the other one", b"ok\nr\ns\n", second.asked(b"alice", b"repos\n"))
    checks.same("its end", done(), second.ended())
    checks.same("the folder", sound(), program.checked(kept))


def show_replaced_segments(checks, program, work):
    """A segment is replaced by a copy under a host that appends to it. What it appends then is in no file, and no state names it."""
    folder = Folder(os.path.join(work, "segments"))
    live = Live(program.packed(), "--sync", "--dir", folder.path, *TENANTS)
    blobs = [b"push r\n\n" + record(b"blob", text) for text in (b"one", b"two")]
    checks.same("before", [b"ok\n", b"ok\n"], [live.asked(b"alice", b"init r\n"), live.asked(b"alice", blobs[0])])
    path, = folder.segments().paths()
    shutil.copy2(path, copy := os.path.join(work, "copy"))
    os.rename(copy, path)
    checks.same("after it", b"ok\n", live.asked(b"alice", blobs[1]))
    checks.same("the end", failed("state not saved"), live.ended())
    checks.same("a start puts what it has in the journal", sound(folder.again()), program.checked(folder.path))
