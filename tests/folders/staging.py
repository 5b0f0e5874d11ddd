"""Uploads in parts: what of them is on the store as they come, and what the process keeps of them."""
import os
import random
import re

from folders.cases import B, C, D, OBJECTS, O, T
from lib.folder import Folder
from lib.frames import frame, framed, frames
from lib.live import Live, Serving
from lib.objects import name_of, record, stored
from lib.program import done, sound

ALICE, BOB, HOST = b"alice", b"bob", b"@host"
BLOBS = [(b"blob", b"%d more\n" % number * number) for number in range(35)]
THINGS = [OBJECTS[name] for name in (B, O, T, C)] + BLOBS + [OBJECTS[D]]
ORDER = [name_of(*thing) for thing in THINGS]
RECORDS = [record(*thing) for thing in THINGS]
HEAD = b"create refs/heads/main %s\n\n" % D
BODY = HEAD + b"".join(RECORDS)
ENDS = [len(HEAD) + len(b"".join(RECORDS[: at + 1])) for at in range(len(ORDER))]
MIB = 1 << 20


def begun(checks, program, folder):
    live = Live(program, "--dir", folder.path, "alice=1000000000")
    checks.same("init", b"ok\n", live.asked(ALICE, b"init r\n"))
    return live


def files_of(count):
    """The files of this many objects, the first that come."""
    return {name: stored(*thing) for name, thing in zip(ORDER[:count], THINGS)}


def show_staged(checks, program, work):
    """However a body is cut, the objects whose records are whole are on the store, and no tenant sees one before its end."""
    for number in range(40):
        chance = random.Random(number)
        folder = Folder(os.path.join(work, str(number)))
        live = begun(checks, program, folder)
        cuts = sorted([0, *(chance.randrange(len(BODY)) for _ in range(chance.randrange(20))), len(BODY)])
        for at, end in zip(cuts, cuts[1:]):
            checks.same(f"{number}: a part", b"ok\n", live.asked(ALICE, b"part\n" + BODY[at:end]))
            came = sum(whole <= end for whole in ENDS)
            checks.same(f"{number}: what came by {end} bytes", files_of(came), folder.files())
            checks.same(f"{number}: the census", b"ok\n%d\n" % came, live.asked(HOST, b"census\n"))
            checks.same(f"{number}: none goes", b"ok\n0\n", live.asked(HOST, b"collect\n"))
            name = chance.choice(ORDER)
            checks.same(f"{number}: nothing is seen", b"no missing %s\n" % name, live.asked(ALICE, b"cat-file %s\n" % name))
        if number % 2:
            checks.same(f"{number}: it goes", b"ok\n", live.asked(ALICE, b"part-drop\n"))
            checks.same(f"{number}: and what came", b"ok\n%d\n" % len(ORDER), live.asked(HOST, b"collect\n"))
            checks.same(f"{number}: nothing is left", {}, folder.live())
        else:
            checks.same(f"{number}: its end", b"ok\n", live.asked(ALICE, b"part-end r\n"))
            checks.same(f"{number}: it is seen", b"ok\n" + RECORDS[-1], live.asked(ALICE, b"cat-file %s\n" % D))
        checks.same(f"{number}: the end", done(), live.ended())


def show_broken(checks, program, work):
    """A part that breaks the stream leaves nothing staged, and no later one does."""
    for number, end in enumerate((len(HEAD), *ENDS[:9])):
        folder = Folder(os.path.join(work, str(number)))
        live = begun(checks, program, folder)
        checks.same("a part", b"ok\n", live.asked(ALICE, b"part\n" + BODY[:end]))
        checks.same("one that is wrong", b"ok\n", live.asked(ALICE, b"part\nzz\n"))
        checks.same("what came goes", b"ok\n%d\n" % number, live.asked(HOST, b"collect\n"))
        checks.same("one more", b"ok\n", live.asked(ALICE, b"part\n" + b"".join(RECORDS)))
        checks.same("nothing came with it", {}, folder.live())
        checks.same("its end", b"no syntax\n", live.asked(ALICE, b"part-end r\n"))
        checks.same("the end", done(), live.ended())


def show_altered(checks, program, work):
    """The process has no copy of its own: a file that is altered between two requests is found so, and the upload stays."""
    folder = Folder(os.path.join(work, "altered"))
    live = begun(checks, program, folder)
    for piece in (BODY[: ENDS[20]], BODY[ENDS[20] :]):
        checks.same("a part", b"ok\n", live.asked(ALICE, b"part\n" + piece))
    for name in (T, C, D):
        folder.flip(name)
        checks.same("an end over an altered file", b"host damaged\n", live.asked(ALICE, b"part-end r\n"))
        checks.same("the upload stays", b"no upload-open\n", live.asked(ALICE, b"push r\n\n"))
        folder.flip(name)
    checks.same("its end", b"ok\n", live.asked(ALICE, b"part-end r\n"))
    checks.same("the end", done(), live.ended())


def show_kept(checks, program, work):
    """An upload outlives a kill with what is staged: after a start it goes on, and holds what it held."""
    folder = Folder(os.path.join(work, "kept"))
    live = begun(checks, program, folder)
    for at, end in zip((0, *ENDS), ENDS):
        checks.same("a part", b"ok\n", live.asked(ALICE, b"part\n" + BODY[at : end - 1]))
        checks.same("its last byte", b"ok\n", live.asked(ALICE, b"part\n" + BODY[end - 1 : end]))
        live.child.kill()
        live.child.communicate()
        live = Live(program, "--dir", folder.path)
        checks.same("nothing goes", b"ok\n0\n", live.asked(HOST, b"collect\n"))
        checks.same("what came is there", files_of(ENDS.index(end) + 1), folder.files())
    checks.same("its end", b"ok\n", live.asked(ALICE, b"part-end r\n"))
    checks.same("it is seen", b"ok\n" + RECORDS[-1], live.asked(ALICE, b"cat-file %s\n" % D))
    checks.same("the end", done(), live.ended())


def show_ended(checks, program, work):
    """An upload ends with a serving that ends: what it left is held by nobody, and the same objects come again by a push."""
    for count in (0, 1, 5, len(ORDER)):
        folder = Folder(os.path.join(work, str(count)))
        live = begun(checks, program, folder)
        end = ENDS[count - 1] if count else len(HEAD)
        checks.same("a part", b"ok\n", live.asked(ALICE, b"part\n" + BODY[:end]))
        checks.same("the end", done(), live.ended())
        checks.same("check", sound(), program.checked(folder.path))
        checks.same("what came stays", files_of(count), folder.files())
        live = Live(program, "--dir", folder.path)
        checks.same("nothing is left to end", b"no no-upload\n", live.asked(ALICE, b"part-end r\n"))
        checks.same("or to drop", b"no no-upload\n", live.asked(ALICE, b"part-drop\n"))
        if count % 2:
            checks.same("what came goes", b"ok\n%d\n" % count, live.asked(HOST, b"collect\n"))
            checks.same("none is left", {}, folder.live())
        checks.same("a push of all", b"ok\n", live.asked(ALICE, b"push r\n" + BODY))
        checks.same("it is seen", b"ok\n" + RECORDS[-1], live.asked(ALICE, b"cat-file %s\n" % D))
        checks.same("nothing goes", b"ok\n0\n", live.asked(HOST, b"collect\n"))
        checks.same("the last end", done(), live.ended())


def show_linear(checks, program, work):
    """A record is hashed once, when it is whole: one of 8 MiB in parts of 1 KiB takes seconds of a processor, and not minutes."""
    folder = Folder(os.path.join(work, "linear"))
    large = (b"blob", random.Random(1).randbytes(8 * MIB))
    body = b"\n" + record(*large)
    live = begun(checks, program, folder)
    told = {live.asked(ALICE, b"part\n" + body[at : at + 1024]) for at in range(0, len(body), 1024)}
    took = seconds(live)
    checks.same("each part", {b"ok\n"}, told)
    checks.same(f"it took {took:.1f} s", True, took < 30)
    checks.same("its end", b"ok\n", live.asked(ALICE, b"part-end r\n"))
    checks.same("it is seen", b"ok\n" + record(*large), live.asked(ALICE, b"cat-file %s\n" % name_of(*large)))
    checks.same("the end", done(), live.ended())


def seconds(live):
    """How long the process had a processor, in seconds: proc_pid_stat(5)."""
    with open(f"/proc/{live.child.pid}/stat", encoding="ascii") as file:
        words = file.read().rpartition(")")[2].split()
    return sum(map(int, words[11:13])) / os.sysconf("SC_CLK_TCK")


def peak(live):
    """What the process had in memory at its peak, in bytes."""
    with open(f"/proc/{live.child.pid}/status", encoding="ascii") as file:
        return int(re.search(r"VmHWM:\s*(\d+) kB", file.read())[1]) * 1024


def show_memory(checks, program, work):
    """While an upload of 30 MB comes the process grows by no more than its largest object and 16 MiB."""
    folder = Folder(os.path.join(work, "large"))
    blobs = [(b"blob", random.Random(number).randbytes(300_000)) for number in range(100)]
    body = b"\n" + b"".join(record(*thing) for thing in blobs)
    live = begun(checks, program, folder)
    before = peak(live)
    for at in range(0, len(body), MIB - 5):
        checks.same("a part", b"ok\n", live.asked(ALICE, b"part\n" + body[at : at + MIB - 5]))
    checks.same("its end", b"ok\n", live.asked(ALICE, b"part-end r\n"))
    grown = peak(live) - before
    checks.same(f"it grew by {grown:,} bytes", True, grown <= 300_000 + 16 * MIB)
    checks.same("what came", {name_of(*thing) for thing in blobs}, set(folder.files()))
    checks.same("the end", done(), live.ended())


def show_unreadable(checks, program, work):
    """While an open upload cannot be read no state is saved, and everybody is served; once it can be, it is saved again."""
    folder, path = Folder(os.path.join(work, "kept")), os.path.join(work, "socket")
    serving = Serving(program, path, 7, "--dir", folder.path, "alice=10000", "bob=10000000")
    ok = framed(b"ok\n")
    sent = frames([(ALICE, b"init r\n"), (ALICE, b"part\n" + BODY), (BOB, b"init r\n")])
    checks.same("an upload", ok * 3, serving.told(sent))
    state = folder.state()
    folder.flip(D)
    large = [record(b"blob", random.Random(number).randbytes(900_000)) for number in range(4)]
    for number, text in enumerate(large[:2]):
        checks.same(f"a push of another one, {number}", ok, serving.told(frame(BOB, b"push r\n\n" + text)))
    checks.same("the state stays, however long the journal is", (state, True), (folder.state(), len(folder.journal()) > MIB))
    checks.same("what was pushed", framed(b"ok\n" + large[0]), serving.told(frame(BOB, b"cat-file " + large[0][:64] + b"\n")))
    folder.flip(D)
    for number, text in enumerate(large[2:]):
        checks.same(f"a push of 1 MiB more, {number}", ok, serving.told(frame(BOB, b"push r\n\n" + text)))
    checks.same("the upload's end", ok, serving.told(frame(ALICE, b"part-end r\n")))
    checks.same("it was saved before that", False, folder.state() == state)
    checks.same("the end", done(), serving.ended())
    checks.same("check", sound(), program.checked(folder.path))
