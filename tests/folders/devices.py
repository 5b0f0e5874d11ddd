"""What a running host meets in its folder: files that cannot be written, that are altered, and that are gone."""
import os
import shutil
import subprocess

from folders.cases import B, C, D, FILES, O, OBJECTS, alone
from folders.state_text import Repository, Tenant, spelled
from lib.checks import Checks
from lib.folder import Folder, content
from lib.frames import framed, frames
from lib.live import Live
from lib.objects import name_of, record, stored
from lib.program import done, ended, failed, sound

PUSH = b"push r\ncreate refs/heads/main %s\n\n" % D + b"".join(record(*thing) for thing in OBJECTS.values())
ALICE, BOB = b"alice", b"bob"
NAME_OF_NOTHING = name_of(b"blob", b"") + b"\n"
SAVED = alone(OBJECTS, (b"refs/heads/main", D))


def homes(folder):
    return [folder.inside("objects", f"{number:02x}") for number in range(256)]


def show_devices(checks, program, work):
    show_writes(checks, program, Folder(os.path.join(work, "writes")))
    show_second_write(checks, program, Folder(os.path.join(work, "second")))
    show_reads(checks, program, Folder(os.path.join(work, "reads")))
    show_shared(checks, program, Folder(os.path.join(work, "shared")))
    show_leftovers(checks, program, Folder(os.path.join(work, "leftovers")))
    show_streams(checks, program, Folder(os.path.join(work, "streams")))
    show_untold(checks, program, work)
    for rest, fault in ((b"", "state not saved"), (b"alice", "bad frame")):
        show_saves(checks, program, Folder(os.path.join(work, f"saves{len(rest)}")), rest, fault)


def show_streams(checks: Checks, program, folder):
    """Standard input or output fails: what was answered before is saved."""
    made = spelled([Tenant(ALICE, 10000, [Repository(b"r", {})], [])])
    pushed = frames([(ALICE, b"init r\n"), (ALICE, b"init s\n")])
    words = ["run", "--dir", folder.path, "alice=10000"]
    with open("/dev/full", "wb") as full:
        checks.same("a full device", failed("write", None), ended(program.begun(*words, stdout=full), pushed))
    checks.same("what was answered", made, folder.state())
    os.remove(folder.inside("state"))
    reading, writing = os.pipe()
    os.close(reading)
    checks.same("a pipe that nobody reads", failed("write", None), ended(program.begun(*words, stdout=writing), pushed))
    os.close(writing)
    checks.same("what was answered", made, folder.state())
    os.remove(folder.inside("state"))
    closed = ["sh", "-c", 'exec "$0" "$@" >&-', program.path, *words]
    ran = subprocess.run(closed, input=pushed, stderr=subprocess.PIPE)
    checks.same("an output that is closed", (1, b"forkhost: write\n"), (ran.returncode, ran.stderr))
    checks.same("what was answered", made, folder.state())
    checks.same("nothing of it stands in the folder's lock", b"", content(folder.inside("lock")))
    place = os.open(folder.path, os.O_RDONLY)
    child = program.begun("run", "--dir", folder.path, stdin=place)
    checks.same("an input that can't be read", failed("read"), ended(child, None))
    os.close(place)
    checks.same("the state stays", made, folder.state())


def show_untold(checks: Checks, program, work):
    """Standard error takes nothing: the status stays what it is."""
    absent = os.path.join(work, "absent")
    rows = {
        ("hash-object",): (0, NAME_OF_NOTHING),
        ("--help",): (0, None),
        ("--version",): (0, b"forkhost 0.1.0\n"),
        ("hash-object", "--type=tag"): (1, b""),
        ("check", "--dir", absent): (1, b""),
        ("run", "--dir", os.path.join(work, "file", "in")): (1, b""),
        ("hash",): (2, b""),
        ("run", "alice"): (2, b""),
        (b"\xff",): (2, b""),
    }
    with open(os.path.join(work, "file"), "wb"), open("/dev/full", "wb") as full:
        for words, (status, output) in rows.items():
            ran = subprocess.run([program.path, *words], input=b"", stdout=subprocess.PIPE, stderr=full)
            checks.same(f"the status of {words}", status, ran.returncode)
            checks.same(f"the output of {words}", ran.stdout if output is None else output, ran.stdout)


def show_writes(checks: Checks, program, folder):
    """No object can be written: files are where folders must be."""
    live = Live(program, "--dir", folder.path, "alice=10000")
    checks.same("init", b"ok\n", live.asked(ALICE, b"init r\n"))
    for home in homes(folder):
        os.rmdir(home)
        with open(home, "wb"):
            pass
    for _ in range(2):
        checks.same("a push that can't be written", b"host store\n", live.asked(ALICE, PUSH))
        checks.same("it changes nothing", b"ok\n0 10000\n", live.asked(ALICE, b"quota\n"))
        checks.same("no reference is made", b"ok\n", live.asked(ALICE, b"for-each-ref r\n"))
    for home in homes(folder):
        os.remove(home)
    checks.same("the same push later", b"ok\n", live.asked(ALICE, PUSH))
    checks.same("its end", done(), live.ended())
    checks.same("its state", SAVED, folder.state())
    checks.same("its files", FILES, folder.files())
    checks.same("check", sound(), program.checked(folder.path))


def show_second_write(checks: Checks, program, folder):
    """The second object of a push cannot be written, and the first one is: nothing came of the push to anybody."""
    live = Live(program, "--dir", folder.path, "alice=10000", "bob=10000")
    for who in (ALICE, BOB):
        checks.same("init", b"ok\n", live.asked(who, b"init r\n"))
    first, second = B, O
    push = b"push r\n\n" + record(*OBJECTS[first]) + record(*OBJECTS[second])
    home = os.path.dirname(folder.file_of(second))
    os.rmdir(home)
    with open(home, "wb"):
        pass
    checks.same("a push whose second object can't be written", b"host store\n", live.asked(ALICE, push))
    checks.same("the first one is there", True, os.path.exists(folder.file_of(first)))
    for who in (ALICE, BOB):
        checks.same("quota is as before", b"ok\n0 10000\n", live.asked(who, b"quota\n"))
        checks.same("so are references", b"ok\n", live.asked(who, b"for-each-ref r\n"))
        checks.same("nobody sees it", b"no missing %s\n" % first, live.asked(who, b"cat-file %s\n" % first))
    os.remove(home)
    checks.same("the same push again", b"ok\n", live.asked(ALICE, push))
    checks.same("both are there", sorted([first, second]), sorted(folder.files()))
    checks.same("its end", done(), live.ended())
    checks.same("check", sound(), program.checked(folder.path))


def show_shared(checks: Checks, program, folder):
    """A file that two tenants share is altered: it is damaged for both, and what they use stays."""
    live = Live(program, "--dir", folder.path, "alice=100000", "bob=100000")
    content = b"x" * 70000
    name = name_of(b"blob", content)
    for who in (ALICE, BOB):
        checks.same("init", b"ok\n", live.asked(who, b"init r\n"))
        checks.same("a push", b"ok\n", live.asked(who, b"push r\n\n" + record(b"blob", content)))
    folder.keep(name, stored(b"blob", content)[:-1] + b"y")
    for who in (ALICE, BOB):
        checks.same("what both have is damaged", b"host damaged\n", live.asked(who, b"cat-file %s\n" % name))
        checks.same("and counts as before", b"ok\n70064 100000\n", live.asked(who, b"quota\n"))
    folder.keep(name, stored(b"blob", content))
    for who in (ALICE, BOB):
        checks.same("what is put back", b"ok\n" + record(b"blob", content), live.asked(who, b"cat-file %s\n" % name))
    checks.same("its end", done(), live.ended())


def is_right(reply, *others):
    """The commit's record, or one of these; and never other bytes."""
    return None if reply in (b"ok\n" + record(*OBJECTS[C]), *others) else reply


def show_reads(checks: Checks, program, folder):
    """A file is altered while the host runs. Whoever sees it gets what it was, or a fault; whoever sends it, a fault."""
    live = Live(program, "--dir", folder.path, "alice=10000", "bob=10000")
    for who, payload in ((ALICE, b"init r\n"), (ALICE, PUSH), (BOB, b"init r\n")):
        checks.same(repr(payload[:10]), b"ok\n", live.asked(who, payload))
    spoil_one(checks, live, folder)
    checks.same("the same push later", b"ok\n", live.asked(BOB, PUSH))
    for name in OBJECTS:
        for who in (ALICE, BOB):
            wanted = b"ok\n" + record(*OBJECTS[name])
            checks.same("what is put back", wanted, live.asked(who, b"cat-file %s\n" % name))
    checks.same("its end", done(), live.ended())
    checks.same("check", sound(), program.checked(folder.path))


def spoil_one(checks, live, folder):
    """Something else is in the place of the commit's file, and then the file again. For one that is gone see `harms.py`."""
    path = folder.file_of(C)
    spoiled = {
        "cut": (lambda: folder.keep(C, FILES[C][:-1]), b"host damaged\n"),
        "empty": (lambda: folder.keep(C, b""), b"host damaged\n"),
        "another's": (lambda: folder.keep(C, FILES[B]), b"host damaged\n"),
        "a pipe": (lambda: os.mkfifo(path), b"host damaged\n"),
        "a link to itself": (lambda: os.symlink(path, path), b"host store\n"),
    }
    for label, (lay, fault) in spoiled.items():
        os.remove(path)
        lay()
        told = live.asked(ALICE, b"cat-file %s\n" % C)
        checks.holds(f"a file that is {label}", is_right(told, fault))
        checks.same(f"a push to one that is {label}", fault, live.asked(BOB, PUSH))
        checks.same("it changes nothing", b"ok\n0 10000\n", live.asked(BOB, b"quota\n"))
        checks.same("one who sees none is told so", b"no missing %s\n" % C, live.asked(BOB, b"cat-file %s\n" % C))
        os.remove(path)
        folder.keep(C, FILES[C])


def show_leftovers(checks: Checks, program, folder):
    """Files that nobody sees and that are not whole are written again by a push."""
    for number, name in enumerate(FILES):
        folder.keep(name, FILES[name][: 9 * number])
    given = frames([(ALICE, b"init r\n"), (ALICE, PUSH)])
    ran = program.ran("run", "--dir", folder.path, "alice=10000", given=given)
    checks.same("a push to what lies there", done(framed(b"ok\n") * 2), ran)
    checks.same("its files", FILES, folder.files())
    checks.same("its state", SAVED, folder.state())
    checks.same("check", sound(), program.checked(folder.path))


def show_saves(checks: Checks, program, folder, rest, fault):
    """The state cannot be written: a folder is where its part must be. The old one stays, and its journal has what was
    done since."""
    checks.same("the first start", done(), program.ran("run", "--dir", folder.path, "alice=10000"))
    old = folder.state()
    live = Live(program, "--dir", folder.path)
    for payload in (b"init r\n", PUSH):
        checks.same(repr(payload[:10]), b"ok\n", live.asked(ALICE, payload))
    os.mkdir(folder.inside("part"))
    told = b"! bad-frame\n" if rest else b""
    checks.same("its end", failed(fault, told), live.ended(rest))
    checks.same("the state stays", old, folder.state())
    os.rmdir(folder.inside("part"))
    checks.same("check", sound(2), program.checked(folder.path))
    live = Live(program, "--dir", folder.path)
    checks.same("the repository is there", b"no repository-exists r\n", live.asked(ALICE, b"init r\n"))
    checks.same("what was pushed", b"ok\n" + record(*OBJECTS[C]), live.asked(ALICE, b"cat-file %s\n" % C))
    checks.same("its end", done(), live.ended())
    checks.same("its state", SAVED, folder.state())
    shutil.rmtree(folder.path)
