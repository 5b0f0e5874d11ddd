"""What is reported beside a fault of a folder: the path and the cause, on standard error; and that a folder is open to others."""
import os
import shutil
import signal
import socket
import subprocess

from lib.folder import Folder
from lib.frames import frame, frames
from lib.live import Live
from lib.program import PATIENCE, Ran, done
from folders.state_text import Tenant, spelled

ALICE = b"alice"
NOBODY = 65534
STORE, UNREADABLE, NO_STATE = b"forkhost: store\n", b"forkhost: state unreadable\n", b"forkhost: no state\n"
STATE = spelled([Tenant(ALICE, 10000, [], [])])


def told(program, *words, **how):
    """How a run ends, with all that standard error has."""
    ran = subprocess.run([program.path, *words], input=b"", capture_output=True, timeout=PATIENCE, **how)
    return Ran(ran.returncode, ran.stdout, ran.stderr)


def caused(fault, cause, path):
    return Ran(1, b"", fault + f"forkhost: {cause}: {path}\n".encode())


def there(folder):
    """All that is there, with modes and bytes."""
    found = {}
    for at, folders, files in os.walk(folder):
        for path in (os.path.join(at, name) for name in folders + files):
            what = os.lstat(path)
            found[path] = what.st_mode, what.st_uid, what.st_size, what.st_mtime_ns
    return found


def show_causes(checks, program, work):
    show_held(checks, program, Folder(os.path.join(work, "held")))
    show_wrong_things(checks, program, work)
    show_no_right(checks, program, os.path.join(work, "rights"))
    show_read_only(checks, program, os.path.join(work, "read-only"))
    show_no_cause(checks, program, Folder(os.path.join(work, "objects")))
    show_open(checks, program, os.path.join(work, "open"))
    show_lengths(checks, program, work)


def show_held(checks, program, folder):
    """Another process has the folder: each command that opens it says so, and changes nothing."""
    live = Live(program, "--dir", folder.path, "alice=10000")
    checks.same("it serves", b"ok\n", live.asked(ALICE, b"init r\n"))
    before = there(folder.path)
    wanted = caused(STORE, "lock held by another process", folder.inside("lock"))
    at = ["--dir", folder.path]
    for words in (["run"], ["check"], ["upgrade"], ["add-tenant", "bob=1"], ["set-limit", "alice=1"], ["remove-tenant", "alice"]):
        checks.same(f"{words[0]} of a folder that is held", wanted, told(program, words[0], *at, *words[1:]))
    serve = ["serve", "--socket", folder.path + ".socket", "--connections", "1"]
    checks.same("serve of a folder that is held", wanted, told(program, *serve, *at))
    checks.same("nothing is changed", before, there(folder.path))
    checks.same("it serves on", b"ok\n0 10000\n", live.asked(ALICE, b"quota\n"))
    checks.same("its end", done(), live.ended())
    checks.same("the lock is free", done(), told(program, "run", *at))


def show_wrong_things(checks, program, work):
    """Something else is where a folder or a file is wanted."""
    file = os.path.join(work, "file")
    open(file, "xb").close()
    checks.same("a file is the folder", caused(STORE, "not a directory", file), told(program, "run", "--dir", file))
    inside = os.path.join(file, "in", "it")
    checks.same("a file is its parent", caused(STORE, "not a directory", inside), told(program, "run", "--dir", inside))
    roots = os.listdir("/")
    checks.same("no folder is named", caused(STORE, "entity not found", ""), told(program, "run", "--dir", ""))
    checks.same("nothing is made at the root", roots, os.listdir("/"))
    absent = os.path.join(work, "absent", "folder")
    checks.same("check of no folder", Ran(1, b"", NO_STATE), told(program, "check", "--dir", absent))
    link = os.path.join(work, "link")
    os.symlink(link, link)
    checks.same("a link to itself", caused(STORE, "not a directory", link), told(program, "run", "--dir", link))
    makers = {"folder": os.mkdir, "pipe": os.mkfifo, "socket": bound}
    for place, fault in (("lock", STORE), ("state", UNREADABLE)):
        for label, make in makers.items():
            folder = Folder(os.path.join(work, f"{label}-{place}"))
            make(folder.inside(place))
            before = there(folder.path)
            wanted = caused(fault, "not a regular file", folder.inside(place))
            ran = told(program, "run", "--dir", folder.path)
            checks.same(f"a {label} is the {place}", wanted, ran)
            stays = there(folder.path)
            checks.same(f"it stays, a {label} as the {place}", before[folder.inside(place)], stays[folder.inside(place)])
    folder = Folder(os.path.join(work, "file-as-objects"))
    open(folder.inside("objects"), "xb").close()
    path = folder.inside("objects")
    ran = told(program, "run", "--dir", folder.path)
    checks.same("a file is the folder of objects", caused(STORE, "not a directory", path), ran)


def bound(path):
    """A socket at the path, which may be longer than that of a socket."""
    home, name = os.path.split(path)
    back = os.open(".", os.O_RDONLY)
    os.chdir(home)
    try:
        with socket.socket(socket.AF_UNIX) as stream:
            stream.bind(name)
    finally:
        os.fchdir(back)
        os.close(back)


def show_no_right(checks, program, work):
    """Nobody runs the program over folders that are root's, or from which rights were taken."""
    if os.geteuid() != 0:
        return
    os.chmod(os.path.dirname(os.path.dirname(work)), 0o755)
    os.chmod(os.path.dirname(work), 0o755)
    os.mkdir(work, 0o755)
    os.chmod(work, 0o755)
    mine = shutil.copy(program.path, os.path.join(work, "program"))
    os.chmod(mine, 0o755)
    who = {"user": NOBODY, "group": NOBODY, "extra_groups": []}

    class Other:
        path = mine

    denied = lambda fault, *at: caused(fault, "permission denied", os.path.join(work, *at))
    run = lambda *at: told(Other, "run", "--dir", os.path.join(work, *at), **who)
    checks.same("a parent that is root's", denied(STORE, "new", "host"), run("new", "host"))
    checks.same("nothing is made", False, os.path.exists(os.path.join(work, "new")))
    roots = Folder(os.path.join(work, "roots"))
    roots.set_state(STATE)
    checks.same("a folder that is root's", denied(STORE, "roots", "lock"), run("roots"))
    ran = told(Other, "check", "--dir", roots.path, **who)
    checks.same("check of it", denied(UNREADABLE, "roots", "state"), ran)
    for place, fault in {"lock": STORE, "objects": STORE, "swept": STORE, "state": UNREADABLE}.items():
        folder = Folder(os.path.join(work, f"no-{place}"))
        folder.set_state(STATE)
        os.makedirs(folder.inside("objects"))
        os.makedirs(folder.inside("swept"))
        open(folder.inside("lock"), "xb").close()
        for path in (folder.path, *there(folder.path)):
            os.chown(path, NOBODY, NOBODY)
        os.chown(folder.inside(place), 0, 0)
        os.chmod(folder.inside(place), 0o700 if os.path.isdir(folder.inside(place)) else 0o600)
        checks.same(f"the {place} is root's", denied(fault, f"no-{place}", place), run(f"no-{place}"))
        os.chown(folder.inside(place), NOBODY, NOBODY)
        checks.same(f"the {place} is given back", done(), run(f"no-{place}"))


def show_read_only(checks, program, work):
    """A file system that takes nothing, where the machine lets one be mounted."""
    os.mkdir(work)
    mounted = ["mount", "-t", "tmpfs", "-o", "ro,size=64k", "none", work]
    if os.geteuid() != 0 or subprocess.run(mounted, capture_output=True).returncode != 0:
        return
    try:
        path = os.path.join(work, "host")
        wanted = caused(STORE, "read-only filesystem or storage medium", path)
        checks.same("a medium that is only read", wanted, told(program, "run", "--dir", path))
    finally:
        subprocess.run(["umount", work], check=True)


def show_no_cause(checks, program, folder):
    """A fault that is not of the folder, its lock or its state has one line, as every other one has."""
    given = frames([(ALICE, b"init r\n")])
    checks.same("a start", 0, program.ran("run", "--dir", folder.path, "alice=10000", given=given).status)
    checks.same("a tenant twice", Ran(1, b"", b"forkhost: tenant alice is there already\n"), told(program, "run", "--dir", folder.path, "alice=1"))
    folder.set_state(b"x")
    checks.same("a wrong state", Ran(1, b"", b"forkhost: state line 1\n"), told(program, "run", "--dir", folder.path))
    os.remove(folder.inside("state"))
    checks.same("no state", Ran(1, b"", NO_STATE), told(program, "check", "--dir", folder.path))


def show_open(checks, program, work):
    """A folder that others may use is reported at each start, which goes on, and by no other command."""
    for mode in (0o755, 0o750, 0o701, 0o1777, 0o2770, 0o600 | 0o104):
        path = os.path.join(work, f"{mode:o}")
        os.makedirs(path)
        os.chmod(path, mode)
        line = f"forkhost: {path} is open to others (mode 0{mode:o})\n".encode()
        checks.same(f"a start over the mode {mode:o}", Ran(0, b"", line), told(program, "run", "--dir", path, "alice=10000"))
        checks.same(f"the mode {mode:o} stays", mode, os.stat(path).st_mode & 0o7777)
        serving = ["serve", "--socket", path + ".file", "--connections", "1", "--dir", path]
        open(path + ".file", "xb").close()
        checks.same(f"serve over the mode {mode:o}", Ran(1, b"", line + b"forkhost: socket\n"), told(program, *serving))
        checks.same(f"check over the mode {mode:o}", Ran(0, b"sound\n", b""), told(program, "check", "--dir", path))
        for words in (["add-tenant", "bob=1"], ["set-limit", "bob=2"], ["remove-tenant", "bob"], ["upgrade"]):
            ran = told(program, words[0], "--dir", path, *words[1:])
            checks.same(f"{words[0]} over the mode {mode:o}", (0, b""), (ran.status, ran.fault))
    for mode in (0o700, 0o500, 0o1700):
        path = os.path.join(work, f"{mode:o}")
        os.makedirs(os.path.join(path, "objects"))
        os.chmod(path, mode)
        if mode & 0o200 or os.geteuid() == 0:
            checks.same(f"a start over the mode {mode:o}", done(), told(program, "run", "--dir", path))
    checks.same("a folder that is made", done(), told(program, "run", "--dir", os.path.join(work, "made")))
    checks.same("no folder", done(), told(program, "run"))


def show_lengths(checks, program, work):
    """A limit on the length of files ends the host by a signal; where the signal is ignored, it is a fault of the disk."""
    given = frames([(ALICE, b"init r\n")]) + frame(ALICE, b"part\n\n" + b"x" * 40000)
    for ignored in (False, True):
        path = os.path.join(work, f"ignored-{ignored}")
        told(program, "run", "--dir", path, "alice=1000000")
        script = ("trap '' XFSZ; " if ignored else "") + 'ulimit -f 8; exec "$@"'
        words = ["bash", "-c", script, "bash", program.path, "run", "--dir", path]
        ran = subprocess.run(words, input=given, capture_output=True, timeout=PATIENCE)
        wanted = (1, b"forkhost: journal not written\n") if ignored else (-signal.SIGXFSZ, b"")
        checks.same(f"a file too long, the signal ignored: {ignored}", wanted, (ran.returncode, ran.stderr))
        live = Live(program, "--dir", path)
        checks.same("what was answered is there", b"no repository-exists r\n", live.asked(ALICE, b"init r\n"))
        checks.same("its end", done(), live.ended())
