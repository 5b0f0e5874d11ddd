"""A folder that keeps its objects in segments: which layout it has, and bytes that are cut, altered, moved and doubled."""
import os
import resource
import shutil

from folders.failing import Failing
from folders.harms import ALICE, BOB, HOST, NOTHING, TENANTS, begun, blob, given_up, looks_of, tagged, told_to
from lib.checks import Checks
from lib.folder import Folder, content, write
from lib.frames import frames, replies
from lib.live import Live, Serving
from lib.objects import name_of, record, stored
from lib.packed import SETTLED, Record, record_of, records_in, spelled
from lib.program import Program, done, failed, sound

# Texts whose records are short, so that each byte of a segment can be altered.
TEXTS = [b"one", b"two", b"", b"four\n"]
LATER = [b"later", b"still later"]


def show_layouts(checks: Checks, program, work):
    """A new folder gets the layout that is asked for, and keeps it."""
    for label, words, inside in (("packed", ["--packed"], "segments"), ("loose", [], "objects")):
        path = os.path.join(work, label)
        checks.same(f"{label}: a start", done(), program.ran("run", "--dir", path, *words, *TENANTS))
        checks.same(f"{label}: its folder of objects", [inside], sorted({"segments", "objects"} & {*os.listdir(path)}))
        checks.same(f"{label}: check", sound(), program.checked(path))
    packed, loose = Folder(os.path.join(work, "packed")), Folder(os.path.join(work, "loose"))
    checks.same("a packed one needs no flag", done(), program.ran("run", "--dir", packed.path))
    checks.same("and takes it", done(), program.ran("run", "--dir", packed.path, "--packed"))
    before = sorted(os.listdir(loose.path)), loose.state()
    checks.same("a loose one is not packed", failed("not packed"), program.ran("run", "--dir", loose.path, "--packed"))
    checks.same("it is left as it was", before, (sorted(os.listdir(loose.path)), loose.state()))
    checks.same("upgrade", done(b"state 2\n"), program.ran("upgrade", "--dir", packed.path))
    checks.same("a tenant is added", done(), program.ran("add-tenant", "--dir", packed.path, "dora=5"))
    checks.same("without a folder", done(), program.ran("run", "--packed", "alice=5"))
    checks.same("no name for it", failed("store"), program.ran("run", "--dir", "", "--packed"))


def kept(checks, program, path):
    """A folder with a saved state and a journal after it, and what its host shows."""
    folder = Folder(path)
    first = begun(checks, program.packed(), folder, ALICE, BOB, texts=TEXTS)
    checks.same("the end", done(), first.ended())
    live = Live(program, "--dir", folder.path)
    checks.same("a push", NOTHING, live.asked(ALICE, tagged(*LATER)))
    asks = looks_of(*TEXTS, *LATER)[:-1]
    shows = told_to(live, asks)
    live.child.kill()
    live.child.communicate()
    return folder, asks, shows


def judge(checks, program, folder, asks, shows, label):
    """A start shows all, or reports what is wrong and leaves the folder as it was."""
    before = folder.state(), folder.journals()
    ran = program.ran("run", "--dir", folder.path, given=frames(asks))
    if ran.status == 0:
        checks.same(f"{label}: nothing is missing", frames_of(shows), ran.output)
    else:
        checks.same(f"{label}: a fault", (1, b""), (ran.status, ran.output))
        checks.same(f"{label}: {ran.fault!r} names it", True, ran.fault.startswith((b"forkhost: lost ", b"forkhost: damaged ")))
        checks.same(f"{label}: the folder keeps its state", before, (folder.state(), folder.journals()))
    return ran.status


def copied(folder, name, data):
    """A copy of a folder, in which a file has these bytes."""
    copy = Folder(folder.path + ".copy")
    shutil.rmtree(copy.path)
    shutil.copytree(folder.path, copy.path)
    write(copy.inside(name), data)
    return copy


def flipped(data, at):
    return data[:at] + bytes([data[at] ^ 1]) + data[at + 1 :]


def frames_of(replies):
    return b"".join(b"%d\n%s" % (len(reply), reply) for reply in replies)


def show_altered_segments(checks: Checks, program, work):
    """Each byte is altered, each place is an end, and records change places, come twice and are left out."""
    folder, asks, shows = kept(checks, program, os.path.join(work, "kept"))
    (path,) = folder.segments().paths()
    whole, name = content(path), os.path.relpath(path, folder.path)
    records, length = records_in(whole)
    checks.same("whole records", len(whole), length)
    cases = [(f"byte {at}", whole[:at] + bytes([whole[at] ^ 1 << at % 8]) + whole[at + 1 :]) for at in range(len(whole))]
    cases += [(f"cut at {at}", whole[:at]) for at in range(len(whole))]
    parts = [spelled(record) for record in records]
    for at in range(len(parts)):
        cases.append((f"without record {at}", b"".join(parts[:at] + parts[at + 1 :])))
        cases.append((f"record {at} twice", b"".join(parts[: at + 1] + parts[at:])))
    for at in range(len(parts) - 1):
        cases.append((f"records {at} and {at + 1}", b"".join([*parts[:at], parts[at + 1], parts[at], *parts[at + 2 :]])))
    cases += [("zeros after it", whole + bytes(100)), ("another text after it", whole + b"o" * 100), ("as it is", whole)]
    ends = set()
    for label, data in cases:
        ends.add(judge(checks, program, copied(folder, name, data), asks, shows, label))
    checks.same("both ends occur", {0, 1}, ends)
    saved, at = {blob(text) for text in TEXTS}, 0
    for record, part in zip(records, parts):
        at += len(part)
        if record.data:
            hit = record.name.hex()
            wanted = failed(f"lost {hit}") if hit.encode() in saved else sound(folder.again())
            told = program.checked(copied(folder, name, flipped(whole, at - 1)).path)
            checks.same(f"one byte of {hit[:8]} costs one object", wanted, told)


def show_removals(checks: Checks, program, work):
    """What a sweep removes is back after a kill, and gone for good once the state is saved."""
    folder = Folder(os.path.join(work, "removals"))
    live = begun(checks, program.packed(), folder, ALICE, texts=TEXTS)
    names = sorted(folder.files())
    checks.same("the end", done(), live.ended())
    for is_killed in (True, False):
        live = Live(program, "--dir", folder.path)
        for text in TEXTS:
            checks.same("a reference goes", NOTHING, live.asked(ALICE, given_up(text)))
        checks.same("prune", NOTHING, live.asked(ALICE, b"prune\n"))
        checks.same("all are swept", b"ok\n%d\n" % len(TEXTS), live.asked(HOST, b"collect\n"))
        checks.same("the next opening would put them back", [name.decode() for name in names], folder.swept())
        if is_killed:
            live.child.kill()
            live.child.communicate()
            checks.same("they are back", names, sorted(folder.files()))
            checks.same("check", sound(folder.again()), program.checked(folder.path))
            os.remove(folder.journal_path())
            checks.same("without the journal too", sound(), program.checked(folder.path))
        else:
            checks.same("the end", done(), live.ended())
    checks.same("they are gone", {}, folder.files())
    checks.same("check", sound(), program.checked(folder.path))


def show_damaged_undoing(checks: Checks, program, work):
    """A damaged record may have undone removals: none before it is made final by a later segment."""
    folder = Folder(os.path.join(work, "undoing"))
    checks.same("the end", done(), begun(checks, program.packed(), folder, ALICE, texts=TEXTS).ended())
    names, (path,) = sorted(folder.files()), folder.segments().paths()
    removals = b"".join(spelled(Record(b"r", bytes.fromhex(name.decode()), b"")) for name in names)
    other = record_of(bytes.fromhex(name_of(b"blob", b"other").decode()), stored(b"blob", b"other"))
    write(path, content(path) + removals + spelled(other)[:-1] + b"\0")
    write(folder.inside("segments", "00000002"), spelled(SETTLED))
    checks.same("all are there", names, sorted(folder.files()))
    checks.same("check", sound(), program.checked(folder.path))
    live = Live(program, "--dir", folder.path)
    checks.same("a push", NOTHING, live.asked(ALICE, tagged(*LATER)))
    checks.same("what goes", [NOTHING, NOTHING], [live.asked(ALICE, given_up(LATER[0])), live.asked(ALICE, b"prune\n")])
    checks.same("it is swept", b"ok\n1\n", live.asked(HOST, b"collect\n"))
    checks.same("the end after a removal", done(), live.ended())
    checks.same("check after it", sound(), program.checked(folder.path))


class Unsignalled(Program):
    """A program that gets an error, and no signal, where a file may not grow."""

    def given(self, *words):
        return ["bash", "-c", 'trap "" XFSZ; exec "$@"', "bash", *super().given(*words)]


def show_failed_appends(checks: Checks, program, work):
    """A record that could be written only in part is a fault of the store, and hides nothing that comes later."""
    folder = Folder(os.path.join(work, "failed"))
    live = begun(checks, Unsignalled(program.path, {"run": ("--packed",)}), folder, ALICE, texts=TEXTS)
    pid, big = live.child.pid, b"z" * 30_000
    was = resource.prlimit(pid, resource.RLIMIT_FSIZE)
    resource.prlimit(pid, resource.RLIMIT_FSIZE, (20_000, was[1]))
    told = live.asked(ALICE, tagged(big))
    checks.same("a record that does not fit", b"host store\n", told)
    resource.prlimit(pid, resource.RLIMIT_FSIZE, was)
    checks.same("the next push", NOTHING, live.asked(ALICE, tagged(*LATER)))
    checks.same("and the same again", NOTHING, live.asked(ALICE, tagged(big)))
    asks = looks_of(*TEXTS, *LATER, big)[:-1]
    shows = told_to(live, asks)
    checks.same("the end", done(), live.ended())
    checks.same("a torn segment, and one after it", 2, len(folder.segments().paths()))
    checks.same("check", sound(), program.checked(folder.path))
    ran = program.ran("run", "--dir", folder.path, given=frames(asks))
    checks.same("a start shows all", (0, frames_of(shows)), (ran.status, ran.output))


def show_pipes(checks: Checks, program, work):
    """Something else in the place of the last segment is a fault of the store, and nothing waits for it."""
    folder = Folder(os.path.join(work, "pipes"))
    live = begun(checks, Program(program.path, {"run": ("--packed",)}), folder, ALICE, texts=TEXTS)
    asks = looks_of(*TEXTS)[:-1]
    shows = told_to(live, asks)
    checks.same("the end", done(), live.ended())
    path = os.path.join(folder.path, "segments", "00000002")
    for label, make, remove in (("a pipe", os.mkfifo, os.remove), ("a folder", os.mkdir, os.rmdir)):
        make(path)
        ran = program.ran("run", "--dir", folder.path, given=frames([(ALICE, tagged(*LATER)), *asks]))
        checks.same(label, (0, [b"host store\n", *shows]), (ran.status, replies(ran.output)[0]))
        remove(path)
    ran = program.ran("run", "--dir", folder.path, given=frames([(ALICE, tagged(*LATER))]))
    checks.same("nothing there", (0, [NOTHING]), (ran.status, replies(ran.output)[0]))


MANY = 1_000_000
STAYS, GOES = [b"stays %d" % number for number in range(5)], [b"goes %d" % number for number in range(15)]
# A push, one whose objects go, and what takes them away. At the end the files that stay are copied to a new segment.
TURNS = [(ALICE, tagged(*STAYS)), (ALICE, tagged(*GOES)), *((ALICE, given_up(text)) for text in GOES)]
TURNS += [(ALICE, b"prune\n"), (HOST, b"sweep 9\n"), (HOST, b"collect\n")]


def show_full_writes(checks: Checks, given, work):
    """The disk is full from a write on, for each write of a push, a sweep, and a compaction; then there is room again."""
    program, passes, segments, is_met = Failing(given, work), 0, set(), True
    while is_met:
        is_met = False
        folder = Folder(os.path.join(work, str(passes)))
        live = begun(checks, program, folder, texts=[])
        program.fuse.set("full", passes, MANY)
        for turn in TURNS:
            if (told := live.asked(*turn)) == b"host store\n":
                program.fuse.off()
                is_met, told = True, live.asked(*turn)
            checks.same(f"full after {passes} writes: {turn[1][:12]!r}", NOTHING, told[:3])
        asks = looks_of(*STAYS, *GOES)[:-1]
        shows = program.fuse.aside(lambda: told_to(live, asks))
        ran = live.ended()
        is_met = is_met or program.fuse.failed() > 0
        program.fuse.off()
        checks.same(f"full after {passes} writes: its end", True, ran in (done(), failed("state not saved")))
        checks.same(f"full after {passes} writes: check", sound(folder.again()), program.checked(folder.path))
        again = program.ran("run", "--dir", folder.path, given=frames(asks))
        checks.same(f"full after {passes} writes: a start shows all", (0, frames_of(shows)), (again.status, again.output))
        segments |= {os.path.basename(path) for path in folder.segments().paths()}
        shutil.rmtree(folder.path)
        passes += 1
    checks.same(f"{passes} writes, and a segment that was copied", True, passes > 30 and "00000002" in segments)
    program.stop()


def show_room(checks: Checks, program, work):
    """Room of one sweep is free again after some savings, though nothing more is swept."""
    folder = Folder(os.path.join(work, "room"))
    serving = Serving(program, os.path.join(work, "socket"), 7, "--packed", "--dir", folder.path, *TENANTS)
    text = lambda word, number: record(b"blob", b"%s %04d" % (word, number))
    pushed = lambda word, count: b"push r\n\n" + b"".join(text(word, number) for number in range(count))
    room = lambda: sum(map(os.path.getsize, folder.segments().paths()))
    asked = [(ALICE, b"init r\n"), (BOB, b"init r\n"), *[(BOB, pushed(b"stays %d" % at, 6000)) for at in range(3)]]
    checks.same("what stays", [b"ok\n"] * 5, replies(serving.told(frames(asked)))[0])
    live = room()
    asked = [*[(ALICE, pushed(b"goes %d" % at, 6000)) for at in range(3)], (ALICE, b"prune\n"), (HOST, b"collect\n")]
    checks.same("what goes", [*[b"ok\n"] * 4, b"ok\n18000\n"], replies(serving.told(frames(asked)))[0])
    checks.same("it is not free at once", True, room() > 2 * live)
    for number in range(5):
        checks.same(f"a change, {number}", [b"ok\n"], replies(serving.told(frames([(BOB, b"init s%d\n" % number)])))[0])
    checks.same("the end", done(), serving.ended())
    checks.same(f"it is free, {room():,} bytes for {live:,}", True, room() <= 2 * live)
    checks.same("check", sound(), program.checked(folder.path))
