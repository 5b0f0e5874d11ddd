"""Many connections at once, and what they may hold: places, replies that wait, open files, time, and the journal."""
import os
import resource
import subprocess
import threading
import time

from folders.clients import ALICE, GREAT_ASK, GREAT_PUSH, GREAT_TOLD, QUOTA, TENANTS, TOLD, exactly
from folders.patient import sends
from folders.killing import limited
from folders.long_connection import DROP, LONG, PART
from lib.folder import Folder
from lib.frames import frame, framed, frames
from lib.live import Serving, to_end
from lib.objects import name_of, record
from lib.program import done, failed
from lib.waiting import PATIENCE, until, until_it_waits

BAD_LINE = b"! bad-frame\n"
# Replies of so many peers that read nothing are more than may wait in all; and what is left once some have gone is less.
DEAF, GONE = 100, 60
# A reply of a MiB has 46 seconds, one that holds up others 30; what a busy machine takes longer is not counted.
STALLED = 42
# So many times a place becomes free; and at least once the next one has it in less than so many seconds.
FREED, AT_ONCE = 5, 0.1


def served(program, work, connections, places, *words):
    path = os.path.join(work, "socket")
    return Serving(program, path, connections, "--at-once", str(places), *words, *TENANTS)


def asked(stream):
    """What a connection is told to a request."""
    stream.sendall(QUOTA)
    return exactly(stream, len(TOLD))


def tells_nothing(stream, seconds):
    """Whether nothing comes for so long."""
    stream.settimeout(seconds)
    try:
        return stream.recv(1) == b"never"
    except TimeoutError:
        return True
    finally:
        stream.settimeout(PATIENCE)


def show_places(checks, program, work):
    """One that idles stays while there is room; where there is none, the one that has idled longest goes."""
    serving = served(program, work, 5, 3)
    first, second, third = [serving.client() for _ in range(3)]
    for stream in (second, first, third, second):
        checks.same("each of three", TOLD, asked(stream))
        time.sleep(0.1)
    third.sendall(QUOTA[:3])
    time.sleep(0.1)
    fourth = serving.client()
    checks.same("a fourth one", TOLD, asked(fourth))
    checks.same("the first has gone", b"", to_end(first))
    third.sendall(QUOTA[3:])
    checks.same("one that had begun a frame is there", TOLD, exactly(third, len(TOLD)))
    checks.same("so is the second", TOLD, asked(second))
    checks.same("and the fourth", TOLD, asked(fourth))
    for stream in (second, third, fourth):
        stream.sendall(QUOTA[:3])
    time.sleep(0.1)
    fifth = serving.client()
    fifth.sendall(QUOTA)
    checks.same("the fifth waits while nobody is idle", True, tells_nothing(fifth, 0.5))
    second.close()
    checks.same("and is served then", TOLD, exactly(fifth, len(TOLD)))
    for stream in (third, fourth):
        stream.sendall(QUOTA[3:])
        checks.same("the others too", TOLD, exactly(stream, len(TOLD)))
    for stream in (third, fourth, fifth):
        stream.close()
    checks.same("the end", done(), serving.ended())


def show_freed(checks, program, work):
    """One that waits for a place is served as soon as one is free."""
    serving = served(program, work, 2 + FREED, 1)
    held = serving.client()
    checks.same("the first", TOLD, asked(held))
    took = []
    for _ in range(FREED):
        held.sendall(QUOTA[:3])
        checks.same("the host waits", True, until_it_waits(serving.child.pid))
        waiting = serving.client()
        waiting.sendall(QUOTA)
        checks.same("a second one waits", True, tells_nothing(waiting, 0.2))
        begun = time.monotonic()
        held.close()
        checks.same("and is served then", TOLD, exactly(waiting, len(TOLD)))
        took.append(time.monotonic() - begun)
        held = waiting
    least = min(took)
    checks.holds("at once", None if least < AT_ONCE else f"it waited {least:.2f} seconds")
    held.close()
    serving.client().close()
    checks.same("the end", done(), serving.ended())


def show_full(checks, program, work):
    serving = served(program, work, DEAF + 2, 128)
    checks.same("a great object", framed(b"ok\n") * 2, serving.told(frames([(ALICE, b"init r\n"), (ALICE, GREAT_PUSH)])))
    good = serving.client()
    checks.same("before", TOLD, asked(good))
    deaf = [serving.client() for _ in range(DEAF)]
    for stream in deaf:
        stream.sendall(GREAT_ASK)
    checks.same("then it only waits", True, until_it_waits(serving.child.pid))
    good.sendall(QUOTA)
    checks.same("no frame is taken", True, tells_nothing(good, 1))
    for stream in deaf[:GONE]:
        stream.close()
    checks.same("one is then", TOLD, exactly(good, len(TOLD)))
    for stream in deaf[GONE:]:
        checks.same("a long reply is whole", GREAT_TOLD, exactly(stream, len(GREAT_TOLD)))
        stream.close()
    good.close()
    checks.same("the end", done(), serving.ended())


def show_stall(checks, program, work):
    """While too much waits, one that takes nothing of its reply for 30 seconds goes, and then frames are taken; but one that
    takes some of it stays."""
    serving = served(program, work, DEAF + 3, 128)
    checks.same("a great object", framed(b"ok\n") * 2, serving.told(frames([(ALICE, b"init r\n"), (ALICE, GREAT_PUSH)])))
    good, slow = serving.client(), serving.client()
    checks.same("before", TOLD, asked(good))
    slow.sendall(GREAT_ASK)
    front, ended = bytearray(), threading.Event()
    taking = threading.Thread(target=takes_slowly, args=(slow, front, ended))
    taking.start()
    deaf = [serving.client() for _ in range(DEAF)]
    for stream in deaf:
        stream.sendall(GREAT_ASK)
    checks.same("then it only waits", True, until_it_waits(serving.child.pid))
    begun = time.monotonic()
    good.sendall(QUOTA)
    checks.same("one is served then", TOLD, exactly(good, len(TOLD)))
    took = time.monotonic() - begun
    checks.holds("it waits 30 seconds", None if 28 < took < STALLED else f"it waited {took:.1f} seconds")
    ended.set()
    taking.join()
    checks.same("one that takes some stays", GREAT_TOLD, bytes(front) + exactly(slow, len(GREAT_TOLD) - len(front)))
    for stream in (good, slow, *deaf):
        stream.close()
    checks.same("the end", done(), serving.ended())


def takes_slowly(stream, front, ended):
    """A part of a reply every few seconds."""
    while not ended.wait(4):
        front += stream.recv(65536)


def show_no_files(checks, program, work):
    """A host that serves one after another waits too, until there is a file for the next one."""
    serving = Serving(program, os.path.join(work, "socket"), 3, *TENANTS)
    checks.same("the first", TOLD, serving.told(QUOTA))
    checks.same("then it only waits", True, until_it_waits(serving.child.pid))
    there = {int(number) for number in os.listdir(f"/proc/{serving.child.pid}/fd")}
    least = min(set(range(len(there) + 1)) - there)
    old = resource.prlimit(serving.child.pid, resource.RLIMIT_NOFILE)
    resource.prlimit(serving.child.pid, resource.RLIMIT_NOFILE, (least, old[1]))
    # The system takes a file for the next connection before it waits for it.
    checks.same("the second has one", TOLD, serving.told(QUOTA))
    stream = serving.client()
    stream.sendall(QUOTA)
    checks.same("the third one waits", True, tells_nothing(stream, 1.5))
    resource.prlimit(serving.child.pid, resource.RLIMIT_NOFILE, old)
    checks.same("and is served then", TOLD, exactly(stream, len(TOLD)))
    stream.close()
    checks.same("the end", done(), serving.ended())


def show_few_files(checks, program, work):
    """Without files for more, those that are there are served, and others once some have gone."""
    serving = served(program, work, 12, 64)
    one = serving.client()
    checks.same("the first", TOLD, asked(one))
    open_now = len(os.listdir(f"/proc/{serving.child.pid}/fd"))
    resource.prlimit(serving.child.pid, resource.RLIMIT_NOFILE, (open_now + 4, open_now + 4))
    more = [serving.client() for _ in range(11)]
    for stream in more:
        stream.sendall(QUOTA)
    for stream in more[:4]:
        checks.same("those that have one", TOLD, exactly(stream, len(TOLD)))
    checks.same("the fifth waits", True, tells_nothing(more[4], 1))
    checks.same("the first goes on", TOLD, asked(one))
    one.close()
    for stream in more[:4]:
        stream.close()
    for stream in more[4:]:
        checks.same("the others", TOLD, exactly(stream, len(TOLD)))
        stream.close()
    checks.same("the end", done(), serving.ended())


def show_no_files_to_save(checks, program, work):
    """Without a file for a new state the old one stays and its journal goes on, until there is one."""
    folder, path = Folder(os.path.join(work, "kept")), os.path.join(work, "socket")
    serving = Serving(program, path, 1, "--dir", folder.path, "--at-once", "8", *TENANTS)
    journal = lambda: sum(it.stat().st_size for it in os.scandir(folder.inside("journal")))
    name = name_of(b"blob", b"one")
    commands = [b"".join(b"%s refs/tags/%0180d %s\n" % (verb, at, name) for at in range(256)) for verb in (b"create", b"delete")]
    with serving.client() as stream:

        def asked_for_long():
            """As many requests as make a journal long, and whether they were done; they bring no object."""
            stream.sendall(b"".join(frame(ALICE, b"update-refs r\n" + commands[at % 2]) for at in range(24)))
            return exactly(stream, 24 * len(framed(b"ok\n"))) == 24 * framed(b"ok\n")

        stream.sendall(frame(ALICE, b"init r\n") + frame(ALICE, b"push r\n\n" + record(b"blob", b"one")))
        checks.same("an object", framed(b"ok\n") * 2, exactly(stream, 2 * len(framed(b"ok\n"))))
        pid = serving.child.pid
        checks.same("a long journal is begun anew", True, asked_for_long() and until_it_waits(pid) and journal() < LONG)
        there = {int(number) for number in os.listdir(f"/proc/{pid}/fd")}
        old = resource.prlimit(pid, resource.RLIMIT_NOFILE)
        resource.prlimit(pid, resource.RLIMIT_NOFILE, (min(set(range(len(there) + 1)) - there), old[1]))
        checks.same("without a file all is done", True, asked_for_long() and asked_for_long())
        checks.same("and is in the journal", True, 2 * LONG < journal())
        resource.prlimit(pid, resource.RLIMIT_NOFILE, old)
        checks.same("with one it is begun anew", True, asked_for_long() and until_it_waits(pid) and journal() < LONG)
    checks.same("the end", done(), serving.ended())


def show_full_disk(checks, program, work):
    """What cannot be kept is not answered, and nothing after it."""
    folder, path = Folder(os.path.join(work, "kept")), os.path.join(work, "socket")
    words = ["--dir", folder.path, "--at-once", "8"]
    first = Serving(program, path, 1, *words, *TENANTS)
    checks.same("a repository", framed(b"ok\n"), first.told(frame(ALICE, b"init r\n")))
    checks.same("the end of the first", done(), first.ended())
    serving = Serving(Limited(program, limited(2000)), path, 8, *words)
    one, other = serving.client(), serving.client()
    checks.same("another tenant is served", TOLD, asked(other))
    told = b""
    for number in range(40):
        one.sendall(frame(ALICE, b"init q%d\n" % number))
        piece = reply_or_end(one)
        if not piece:
            break
        told += piece
    checks.same("replies up to a frame that cannot be kept", True, 0 < len(told) < 40 * 3)
    checks.same("the other one is told nothing more", b"", to_end(other))
    checks.same("the end", failed("journal not written"), serving.ended())
    count = len(told) // 3
    checks.same("each was answered well", b"ok\n" * count, told)
    asks = b"".join(frame(ALICE, b"init q%d\n" % number) for number in range(count))
    exist = b"".join(framed(b"no repository-exists q%d\n" % number) for number in range(count))
    checks.same("what was answered is there", done(exist), program.ran("run", "--dir", folder.path, given=asks))


def reply_or_end(stream):
    found = exactly(stream, len(framed(b"ok\n")))
    return found[-3:]


class Limited:
    """The program, of which a process is prepared before it begins."""

    def __init__(self, program, prepare):
        self.program, self.prepare = program, prepare

    def begun(self, *words):
        pipe = subprocess.PIPE
        given = [self.program.path, *words]
        child = subprocess.Popen(given, stdin=pipe, stdout=pipe, stderr=pipe, preexec_fn=self.prepare, restore_signals=False)
        self.program.running.append(child)
        return child


class Traced:
    """The program, of which a file has each call that syncs."""

    def __init__(self, program, path, *how):
        self.program, self.path, self.how = program, path, how

    def begun(self, *words):
        pipe = subprocess.PIPE
        traced = ["strace", "-f", "-qq", "-o", self.path, "-e", "trace=fdatasync", *self.how, self.program.path, *words]
        child = subprocess.Popen(traced, stdin=pipe, stdout=pipe, stderr=pipe)
        self.program.running.append(child)
        return child

    def count(self):
        with open(self.path, encoding="utf-8", errors="replace") as file:
            return sum("fdatasync(" in line for line in file)


def show_synced(checks, program, work):
    """With --sync what changed something is synced when its reply is there, and nothing else is."""
    ways = {"in turn": ["--sync"], "at once": ["--sync", "--at-once", "8"], "not at all": ["--at-once", "8"]}
    for label, words in ways.items():
        traced = Traced(program, os.path.join(work, f"calls {label}"))
        kept = os.path.join(work, f"kept {label}")
        serving = Serving(traced, os.path.join(work, "socket"), 1, "--dir", kept, *words, *TENANTS)
        with serving.client() as stream:
            for number in range(3):
                before = traced.count()
                stream.sendall(frame(ALICE, b"init r%d\n" % number))
                checks.same(f"{label}: a repository", framed(b"ok\n"), exactly(stream, len(framed(b"ok\n"))))
                checks.same(f"{label}: it is synced", int("--sync" in words), traced.count() - before)
                before = traced.count()
                checks.same(f"{label}: a request that only asks", TOLD, asked(stream))
                checks.same(f"{label}: it is not", 0, traced.count() - before)
        checks.same(f"{label}: the end", done(), serving.ended())


def show_failed_sync(checks, program, work):
    """If a sync fails, the reply does not go out, and serving ends. The first three are those of the reserve, of the state
    and of its journal."""
    for label, words in {"in turn": ["--sync"], "at once": ["--sync", "--at-once", "8"]}.items():
        kept, fails = os.path.join(work, f"kept {label}"), ["-e", "inject=fdatasync:error=EIO:when=5"]
        traced = Traced(program, os.path.join(work, f"calls {label}"), *fails)
        serving = Serving(traced, os.path.join(work, "socket"), 2, "--dir", kept, *words, *TENANTS)
        with serving.client() as stream:
            stream.sendall(frame(ALICE, b"init r\n"))
            checks.same(f"{label}: one that is synced", framed(b"ok\n"), exactly(stream, len(framed(b"ok\n"))))
            stream.sendall(frame(ALICE, b"init s\n"))
            checks.same(f"{label}: one that is not", b"", to_end(stream))
        checks.same(f"{label}: the end", failed("journal not written"), serving.ended())


def upload(number):
    """An upload of one part, which is dropped."""
    return frame(ALICE, b"part\n\n" + record(b"blob", b"%06d" % number + bytes(PART - 6))) + frame(ALICE, DROP)


def show_saved_between(checks, program, work):
    """The journal does not grow while connections stay open: the state is saved between two rounds."""
    folder = Folder(os.path.join(work, "kept"))
    serving = served(program, work, 2, 4, "--dir", folder.path)
    idle = serving.client()
    checks.same("one that stays", TOLD, asked(idle))
    length = lambda: sum(it.stat().st_size for it in os.scandir(folder.inside("journal")))
    longest = 0
    with serving.client() as stream:
        for number in range(20):
            threading.Thread(target=sends, args=(stream, upload(number)), daemon=True).start()
            checks.same(f"upload {number}", framed(b"ok\n") * 2, exactly(stream, 2 * len(framed(b"ok\n"))))
            longest = max(longest, length())
        checks.holds("the journal is short", None if longest < 6 * PART else f"it has {longest} bytes")
        checks.same("the first goes on", TOLD, asked(idle))
    idle.close()
    checks.same("the end", done(), serving.ended())


def show_times(checks, program, work):
    """A frame that was begun, and a reply, have 30 seconds; one that idles may stay, and all others are served meanwhile."""
    serving = served(program, work, 6, 8)
    checks.same("a great object", framed(b"ok\n") * 2, serving.told(frames([(ALICE, b"init r\n"), (ALICE, GREAT_PUSH)])))
    half, deaf, dripping, idle, good = [serving.client() for _ in range(5)]
    begun = time.monotonic()
    half.sendall(QUOTA[:5])
    deaf.sendall(GREAT_ASK * 2)
    ends = {}

    def drips():
        try:
            for byte in QUOTA[:-1] * 10:
                dripping.sendall(bytes([byte]))
                time.sleep(3)
        except OSError:
            ends["dripping"] = time.monotonic() - begun

    def ended(label, stream):
        to_end(stream)
        ends[label] = time.monotonic() - begun

    threads = [threading.Thread(target=drips), threading.Thread(target=ended, args=("half", half))]
    for thread in threads:
        thread.start()
    while "half" not in ends and time.monotonic() < begun + 60:
        checks.same("a good one meanwhile", TOLD, asked(good))
        time.sleep(2)
    for thread in threads:
        thread.join(60)
    for label in ("half", "dripping"):
        took = ends.get(label, 0)
        checks.holds(f"{label} ends in time", None if 29 < took < 42 else f"it ended after {took:.1f} seconds")
    # 30 seconds, and 15 for what is longer than 15 times 64 KiB.
    until(lambda: time.monotonic() > begun + 49)
    checks.same("of a reply that was left, the front alone comes", True, len(to_end(deaf)) < len(GREAT_TOLD))
    checks.same("one that idled is served", TOLD, asked(idle))
    for stream in (half, deaf, dripping, idle, good):
        stream.close()
    checks.same("the end", done(), serving.ended())
