"""A start that changes nothing leaves the file of the state in its place; any other start writes a new one."""
import os
import shutil

from lib.folder import Folder
from lib.frames import framed, frames
from lib.live import Live
from lib.objects import record
from lib.program import done, sound

ALICE = b"alice"
BEGUN = [(ALICE, b"init r\n"), (ALICE, b"push r\n\n" + record(b"blob", b"one"))]
PART = (ALICE, b"part\n\n" + record(b"blob", b"two"))


def inode(folder):
    return os.lstat(folder.inside("state")).st_ino


def started(checks, label, program, folder, stays, *words):
    """A start that serves nothing, and whether the file of the state stays. Its journal is empty."""
    before = inode(folder), folder.state()
    checks.same(f"{label}: a start", done(), program.ran("run", "--dir", folder.path, *words))
    checks.same(f"{label}: the state stays", stays, inode(folder) == before[0])
    if stays:
        checks.same(f"{label}: so does its text", before[1], folder.state())
    checks.same(f"{label}: its journal", ([os.path.basename(folder.journal_path())], b""), (folder.journals(), folder.journal()))
    checks.same(f"{label}: check", sound(), program.checked(folder.path))


def killed(checks, label, program, folder, *turns):
    """A host that was killed when it had answered these."""
    live = Live(program, "--dir", folder.path)
    for tenant, payload in turns:
        checks.same(f"{label}: {payload[:9]!r}", b"ok\n", live.asked(tenant, payload))
    live.child.kill()
    live.child.communicate()


def show_quiet_starts(checks, program, work):
    folder = Folder(os.path.join(work, "quiet"))
    ran = program.ran("run", "--dir", folder.path, "alice=1000", given=frames(BEGUN))
    checks.same("a host", done(framed(b"ok\n") * len(BEGUN)), ran)
    started(checks, "after an end", program, folder, True)
    started(checks, "once more", program, folder, True)
    killed(checks, "a kill", program, folder)
    started(checks, "after a kill", program, folder, True)
    shutil.rmtree(folder.inside("journal"))
    started(checks, "over a state alone", program, folder, True)
    killed(checks, "a kill behind a request", program, folder, (ALICE, b"init s\n"))
    started(checks, "after a request", program, folder, False)
    killed(checks, "a kill within an upload", program, folder, PART)
    started(checks, "after a part", program, folder, False)
    started(checks, "with a tenant", program, folder, False, "bob=10")
    started(checks, "in the end", program, folder, True)
