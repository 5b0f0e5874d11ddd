"""The log of open uploads of more than 1 MiB: what a saving does to it, what a start makes of it, and when it goes."""
import os
import random
import re
import shutil

from folders.logs import UNREADABLE, show_told
from folders.sweeps import HOST
from lib.chained import LINE, NAMELESS, SUM, bounds, full_sum_of, lines_of, log, pieces_in, sum_of
from lib.folder import END, Folder, content, write
from lib.frames import frame, framed, frames, replies
from lib.live import Serving
from lib.objects import name_of, record
from lib.program import Program, done, sound

ALICE, BOB, ZOE = b"alice", b"bob", b"zoe"
TENANTS = ["alice=100000000", "bob=100000000", "zoe=1000"]
INITS = [(who, b"init r\n") for who in (ALICE, BOB, ZOE)]
# An upload of so many blobs is longer than 1 MiB.
MIB, BLOB, COUNT, PART = 1 << 20, 100_000, 12, 400_000
# What a saving may read and write that has nothing of an upload to say.
FEW = 20_000
CALLS = "openat,read,pread64,readv,write,pwrite64,writev"
CALL = re.compile(r"\d+ +(\w+)\((.*)\) += (\d+)")
OK = b"ok\n"


def blob(seed, number, length=BLOB):
    return b"blob", random.Random(f"{seed} {number}").randbytes(length)


def body_of(seed, count):
    """An upload of blobs, without commands."""
    return b"\n" + b"".join(record(*blob(seed, number)) for number in range(count))


def parts_of(who, body):
    return [(who, b"part\n" + body[at : at + PART]) for at in range(0, len(body), PART)]


class Uploading:
    """A host at a socket. Each connection that sweeps something is followed by a saving."""

    def __init__(self, checks, program, folder, work):
        self.checks, self.folder, self.swept = checks, folder, 0
        words = [] if folder.state() else TENANTS
        self.serving = Serving(program, os.path.join(work, "socket"), 1_000_000, "--dir", folder.path, *words)

    def ask(self, label, *turns):
        """One connection, all of whose turns are done."""
        told, rest = replies(self.serving.told(frames(turns)))
        wrong = [reply for reply in told if not reply.startswith(OK)]
        self.checks.same(label, (len(turns), [], b""), (len(told), wrong, rest))

    def save(self, label, *turns):
        """These turns, a sweep, and the saving after it."""
        self.swept += 1
        spare = b"push r\n\n" + record(b"blob", b"spare %d of %d" % (self.swept, self.serving.child.pid))
        self.ask(label, *turns, (ZOE, spare), (ZOE, b"prune\n"), (HOST, b"collect\n"))
        self.ask(f"{label}: after it", (ZOE, b"quota\n"))

    def kill(self):
        self.serving.child.kill()
        self.serving.child.communicate()


def without_reserve(path):
    """A folder whose host makes no reserve: to write and copy that would take most of the time."""
    folder = Folder(path)
    os.mkdir(folder.inside("reserve"))
    return folder


def begun(checks, program, folder, work):
    """A host of two tenants, of which one has an upload in a log."""
    host = Uploading(checks, program, folder, work)
    host.ask("init", *INITS)
    host.ask("an upload", *parts_of(ALICE, body_of("alice", COUNT)))
    host.save("the first saving")
    return host


def log_of(folder):
    """The log of uploads to which the journal refers."""
    referred = folder.referred()
    if referred is None:
        raise ValueError("the journal refers to no log of uploads")
    return referred


class Traced(Program):
    """The program under strace, whose log is at a path."""

    def __init__(self, program, path, *how):
        super().__init__(program.path, program.more)
        self.log, self.how = path, how

    def given(self, *words):
        return ["strace", "-D", "-f", "-o", self.log, *self.how, *super().given(*words)]


def show_small_savings(checks, program, work):
    """By strace: a saving reads nothing of an upload that is in a log, and writes nothing of it."""
    if not shutil.which("strace"):
        raise OSError("there is no strace, by which calls are seen")
    folder, calls = without_reserve(os.path.join(work, "kept")), os.path.join(work, "calls")
    host = begun(checks, Traced(program, calls, "-e", f"trace={CALLS}"), folder, work)
    files = {folder.place_of(name_of(*blob("alice", number)))[0] for number in range(COUNT)}
    before = os.path.getsize(calls)
    host.save("a saving")
    lines = content(calls)[before:].decode("ascii", "replace").splitlines()
    found = [call.groups() for call in map(CALL.match, lines) if call]
    opened = [path for path in files if any(name == "openat" and path in words for name, words, _ in found)]
    checks.same("files of the upload that it opens", [], [] if folder.segments() else opened)
    for verb in ("read", "write"):
        count = sum(int(result) for name, _, result in found if verb in name)
        checks.same(f"bytes that it {verb}s, {count}", True, count < FEW)
    host.kill()


def show_appended(checks, program, work):
    """What came of uploads is appended to the log, until that is 1 MiB longer than it was; then the other file has all anew."""
    folder = without_reserve(os.path.join(work, "kept"))
    host = begun(checks, program, folder, work)
    first, length = log_of(folder), log_of(folder).length
    checks.same("there is one log", [first.number], folder.logs())
    host.save("a saving of nothing more")
    checks.same("the log stays as it is", first, folder.referred())
    turns = [(BOB, b"part\nabc"), (BOB, b"part-drop\n"), *parts_of(ALICE, body_of("more", 3)[1:])]
    said = [*turns[:1], (BOB, END), *turns[2:]]
    before = folder.uploads()
    host.save("a saving of some parts", *turns)
    checks.same("they are appended", (first.number, before + frames(said)), (folder.referred().number, folder.uploads()))
    while (now := log_of(folder)).number == first.number and now.length <= 2 * length + 2 * MIB:
        host.save("another", *parts_of(ALICE, body_of(f"again {now.length}", 4)[1:]))
    checks.same("the other one is begun", ([3 - first.number], True), (folder.logs(), now.number != first.number))
    host.save("an upload is dropped", (ALICE, b"part-drop\n"))
    checks.same("no log is left", ([], None), (folder.logs(), folder.referred()))
    host.save("a short one", (BOB, b"part\nabc"))
    checks.same("it has no log", ([], frame(BOB, b"part\nabc")), (folder.logs(), folder.journal()))
    host.kill()


def show_ended(checks, program, work):
    """Of an upload that ended in a log a start does nothing: what was swept stays away."""
    for label, end in (("dropped", b"part-drop\n"), ("refused", b"part-end no\n")):
        folder = without_reserve(os.path.join(work, label))
        host = begun(checks, program, folder, work)
        host.save(f"{label}: another upload is open", (BOB, b"part\n" + body_of("bob", 1) + b"rest"))
        told, _ = replies(host.serving.told(frame(ALICE, end)))
        checks.same(f"{label}: its end", OK if end == b"part-drop\n" else b"no no-repository no\n", *told)
        host.save(f"{label}: what it left is swept")
        checks.same(f"{label}: the log has it", True, folder.referred() is not None and len(folder.uploads()) > MIB)
        host.kill()
        left = {name_of(*blob("bob", 0))}
        checks.same(f"{label}: what is left", left, set(folder.live()))
        checks.same(f"{label}: check", sound(folder.again()), program.checked(folder.path))
        census = program.ran("run", "--dir", folder.path, given=frame(HOST, b"census\n"))
        checks.same(f"{label}: the census of a start", done(framed(b"ok\n1\n")), census)
        checks.same(f"{label}: its files", left, set(folder.live()))


LEFT = [(ALICE, body_of("alice", COUNT) + body_of("more", 2)[1:] + b"unfinished"), (BOB, body_of("bob", 3))]
ASKS = [(who, ask) for who in (ALICE, BOB) for ask in (b"push r\n\n", b"part\n", b"part-end r\n", b"quota\n")]


def logged(checks, program, work):
    """A folder that a kill left, with a log of uploads and a journal after it; and the log as it was before."""
    folder = without_reserve(os.path.join(work, "base"))
    host = begun(checks, program, folder, work)
    early = content(folder.uploads_path(log_of(folder).number))
    host.save("a second tenant", *parts_of(BOB, b"\nwrong"), (BOB, b"part-drop\n"), *parts_of(ALICE, body_of("more", 2)[1:]))
    host.ask("what no log has", *parts_of(BOB, LEFT[1][1]), (ALICE, b"part\nunfinished"))
    host.kill()
    return folder, early


def show_told_as_before(checks, program, label, folder):
    """What a start shows of the uploads is what a host shows that was never killed."""
    turns = [*INITS, *(turn for one in LEFT for turn in parts_of(*one))]
    memory = program.ran("run", *TENANTS, given=frames(turns + ASKS))
    wanted = b"".join(map(framed, replies(memory.output)[0][len(turns) :]))
    checks.same(f"{label}: the uploads", done(wanted), program.ran("run", "--dir", folder.path, given=frames(ASKS)))


def altered_logs(folder, early):
    """Logs that differ from the one to which the journal refers, by what differs."""
    referred, chance = folder.referred(), random.Random(3)
    whole = content(folder.uploads_path(referred.number))
    ends = bounds(whole)
    near = {at + step for at in (*ends[:2], ends[-2]) for step in (0, 3, 35, 36, -33, -32, -1)} | {len(whole) - 1}
    for at in sorted({at for at in near if at >= 0} | {chance.randrange(len(whole)) for _ in range(8)}):
        yield f"a bit of byte {at}", whole[:at] + bytes([whole[at] ^ 1 << at % 8]) + whole[at + 1 :]
    for cut in (0, 1, *ends[-3:-1], len(whole) - SUM, len(whole) - 1):
        yield f"{cut} bytes", whole[:cut]
    yield "zeros at its end", whole[:-SUM] + bytes(SUM)
    yield "zeros for its last piece", whole[: ends[-2]] + bytes(len(whole) - ends[-2])
    yield "one as it was before", early
    yield "another one", log(NAMELESS, [frame(ALICE, b"part\nabc")])
    yield "another one, as long", (log(NAMELESS, [frame(ALICE, b"part\nabc")]) + bytes(len(whole)))[: len(whole)]


def show_altered_logs(checks, program, work):
    """A log that differs where it counts is told, and nothing changes. One that is longer is right."""
    folder, early = logged(checks, program, work)
    path, count = folder.uploads_path(folder.referred().number), folder.again()
    whole = content(path)
    checks.same("as it is", sound(count), program.checked(folder.path))
    for label, text in altered_logs(folder, early):
        write(path, text)
        checks.same(f"check of {label}", UNREADABLE, program.checked(folder.path))
    show_told(checks, program, folder, "a log", UNREADABLE)
    show_things(checks, program, folder, path)
    for tail in (b"x", bytes(100), log(folder.referred().sum.hex(), [frame(ALICE, b"part\nabc")])):
        write(path, whole + tail)
        checks.same(f"one that has {len(tail)} bytes more", sound(count), program.checked(folder.path))
        other = Folder(shutil.copytree(folder.path, os.path.join(work, f"longer{len(tail)}")))
        show_told_as_before(checks, program, f"{len(tail)} bytes more", other)
        checks.same("no log is left", [], other.logs())


def show_sums_of_logs(checks, program, work):
    """The pieces of a log may have either of their two sums; the journal has the last of them."""
    base, _ = logged(checks, program, work)
    journal, (number, _, last) = content(base.journal_path()), base.referred()
    pieces, _ = pieces_in(NAMELESS, content(base.uploads_path(number)))
    for label, sums in {"full sums": [full_sum_of], "both": [sum_of, full_sum_of, full_sum_of]}.items():
        folder, text = Folder(shutil.copytree(base.path, os.path.join(work, label))), log(NAMELESS, pieces, sums)
        write(folder.uploads_path(number), text)
        checks.same(f"{label}, another last one", UNREADABLE, program.checked(folder.path))
        write(folder.journal_path(), journal.replace(last.hex().encode(), text[-SUM:].hex().encode()))
        checks.same(label, sound(base.again()), program.checked(folder.path))
        show_told_as_before(checks, program, label, folder)


def show_things(checks, program, folder, path):
    """The log is missing, or something else is in its place."""
    os.remove(path)
    show_told(checks, program, folder, "no log", UNREADABLE)
    things = {"a folder": (os.mkdir, os.rmdir), "a pipe": (os.mkfifo, os.remove), "a loop": (lambda at: os.symlink(at, at), os.remove)}
    for label, (lay, clear) in things.items():
        lay(path)
        show_told(checks, program, folder, label, UNREADABLE)
        clear(path)


def show_altered_lines(checks, program, work):
    """The line that refers to the log differs: that is told, and nothing changes."""
    folder, _ = logged(checks, program, work)
    path, referred = folder.journal_path(), folder.referred()
    whole = content(path)
    end = lines_of(whole)[0]
    line = lambda number=referred.number, length=referred.length, told=referred.sum.hex(): b"uploads %d %s %s\n" % (number, str(length).encode(), told.encode())
    places = [*range(LINE, end - 60), *range(end - 60, end - 2, 9), end - 2, end - 1]
    lines = {f"byte {at}": whole[LINE:at] + bytes([whole[at] ^ 1 << at % 8]) + whole[at + 1 : end] for at in places}
    lines |= {"the other number": line(3 - referred.number), "no such number": line(3), "twice": line() * 2}
    lines |= {f"the length {length}": line(length=length) for length in (0, 1, referred.length - 1, referred.length + 1, f"0{referred.length}")}
    lines |= {"another sum": line(told="0" * 64), "upper-case digits": line(told=referred.sum.hex().upper()), "no end": line()[:-1]}
    for label, text in lines.items():
        write(path, whole[:LINE] + text + whole[end:])
        checks.same(f"check of {label}", UNREADABLE, program.checked(folder.path))
    shutil.copy(folder.uploads_path(referred.number), folder.uploads_path(3 - referred.number))
    for label in ("no such number", f"the length {referred.length + 1}", "another sum"):
        write(path, whole[:LINE] + lines[label] + whole[end:])
        show_told(checks, program, folder, label, UNREADABLE)
    write(path, whole)
    show_unreferred(checks, program, folder, work)


def show_unreferred(checks, program, folder, work):
    """A log to which nothing refers stays at a check, and goes at a start, whatever it has."""
    referred, count = folder.referred(), folder.again()
    for label, text in {"a copy": content(folder.uploads_path(referred.number)), "garbage": b"x" * 1000, "nothing": b""}.items():
        write(folder.uploads_path(3 - referred.number), text)
        checks.same(f"{label} beside it", sound(count), program.checked(folder.path))
        checks.same(f"{label} beside it stays", ([1, 2], text), (folder.logs(), content(folder.uploads_path(3 - referred.number))))
        other = Folder(shutil.copytree(folder.path, os.path.join(work, f"beside {label}")))
        show_told_as_before(checks, program, f"{label} beside it", other)
        checks.same(f"{label} beside it goes", [], other.logs())
    checks.same("a start that serves nothing", done(), program.ran("run", "--dir", folder.path))
    for number in (1, 2):
        write(folder.uploads_path(number), b"x")
    checks.same("logs beside a journal that refers to none", sound(), program.checked(folder.path))
    checks.same("a start over them", done(), program.ran("run", "--dir", folder.path))
    checks.same("they go", [], folder.logs())


# Commands that save, as a start does, and what they print.
SAVING = {
    "upgrade": ([], b"state 2\n"),
    "add-tenant": (["carol=5"], b""),
    "set-limit": (["bob=100000001"], b""),
}


def show_logs_go(checks, program, work):
    """No log outlives a stop in order, or a command that saves. Uploads outlive commands."""
    base, _ = logged(checks, program, work)
    copy = lambda label: Folder(shutil.copytree(base.path, os.path.join(work, label)))
    has = lambda folder: (folder.logs(), folder.journal(), content(folder.uploads_path(base.referred().number)))
    before, count = has(base), base.again()
    checks.same("check", sound(count), program.checked(base.path))
    checks.same("it changes nothing", before, has(base))
    for word, (more, output) in SAVING.items():
        folder = copy(word)
        checks.same(word, done(output), program.ran(word, "--dir", folder.path, *more))
        checks.same(f"no log after {word}", ([], None), (folder.logs(), folder.referred()))
        if word == "upgrade":
            show_told_as_before(checks, program, word, folder)
    folder = copy("repack")
    to_other = [] if folder.segments() else ["--packed"]
    checks.same("repack", 0, program.ran("repack", *to_other, "--dir", folder.path).status)
    checks.same("it leaves state and journal, with the log", before, has(folder))
    show_told_as_before(checks, Program(program.path), "repack", folder)
    checks.same("no log after an end", ([], b""), (folder.logs(), folder.journal()))
    folder = copy("serve")
    os.rmdir(folder.inside("reserve"))
    serving = Serving(program, os.path.join(work, "socket"), 1, "--dir", folder.path)
    checks.same("a start removes the log", ([], None), (folder.logs(), folder.referred()))
    told = serving.told(frame(ALICE, b"push r\n\n"))
    checks.same("a connection", (framed(b"no upload-open\n"), done()), (told, serving.ended()))
    checks.same("nothing is left after serving", ([], b""), (folder.logs(), folder.journal()))
    checks.same("check after it", sound(), program.checked(folder.path))
