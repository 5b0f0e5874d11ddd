"""Folders that get the other layout: both ways, killed and failing at each call, refused, mended and on a full disk."""
import os
import random
import shutil
import subprocess
import time

from folders.filling import disk, fill, free
from folders.harms import ALICE, BOB, HOST, NOTHING, begun, blob, given_up, looks_of, tagged, told_to
from folders.injected_calls import CALLS, some_of
from folders.packing import flipped, frames_of
from lib.checks import Checks
from lib.folder import Folder, content, write
from lib.frames import frames
from lib.live import Live
from lib.objects import stored
from lib.packed import SHORT, Record, record_of
from lib.program import PATIENCE, Ran, done, failed, sound, without_cause

# The texts of a saved state, of which the last is swept again, and of a journal after it.
TEXTS = [b"one", b"two", b"", b"l" * 5_000, b"swept"]
LATER = [b"later", b"still later"]
# A file that nobody holds, under a name that is not its hash.
JUNK, JUNK_NAME = b"junk", b"a5" * 32
WAYS = {"to segments": (False, ("--packed",)), "to files": (True, ())}
KILLS = 25
FAILING = {"rename": "EIO", "sync": "EIO", "mkdir": "ENOSPC", "write": "ENOSPC", "unlink": "EIO"}


def layout(folder):
    """What a folder has of both layouts, and of a repack."""
    return sorted({"objects", "swept", "segments", "repack"} & {*os.listdir(folder.path)})


def words_of(layouts):
    """The layout that a start takes."""
    return "segments" if "segments" in layouts else "objects"


class Kept:
    """A folder with a saved state, a journal after it, swept files that the state names, and a file that is no object's; what
    its host shows; and copies of it."""

    def __init__(self, checks, program, work, is_packed):
        self.checks, self.program, self.number = checks, program, 0
        self.folder = Folder(os.path.join(work, "packed" if is_packed else "loose"))
        first = begun(checks, program.packed() if is_packed else program, self.folder, ALICE, BOB, texts=TEXTS)
        checks.same("the end", done(), first.ended())
        live = Live(program, "--dir", self.folder.path)
        checks.same("a push", NOTHING, live.asked(ALICE, tagged(*LATER)))
        for who in (ALICE, BOB):
            checks.same("a reference goes", NOTHING, live.asked(who, given_up(TEXTS[-1])))
            checks.same("prune", NOTHING, live.asked(who, b"prune\n"))
        checks.same("one is swept", b"ok\n1\n", live.asked(HOST, b"collect\n"))
        self.asks = looks_of(*TEXTS, *LATER)[:-1]
        self.shows = told_to(live, self.asks)
        live.child.kill()
        live.child.communicate()
        self.folder.keep(JUNK_NAME, JUNK)
        self.again, self.texts = self.folder.again(), (self.folder.state(), self.folder.journals(), self.folder.journal())
        self.files = {blob(text): stored(b"blob", text) for text in [*TEXTS, *LATER]} | {JUNK_NAME: JUNK}

    def copy(self):
        self.number += 1
        return Folder(shutil.copytree(self.folder.path, f"{self.folder.path}{self.number}"))

    def judge(self, label, folder, wanted=None):
        """The folder has one layout, with all files; the state and the journal are as they were; and a start shows all."""
        found = layout(folder)
        if wanted:
            self.checks.same(f"{label}: its layout", wanted, found)
        self.checks.same(f"{label}: state and journal", self.texts, (folder.state(), folder.journals(), folder.journal()))
        if words_of(found) == "objects" and "swept" in found:
            for name in folder.swept():
                shutil.copy(folder.swept_path(name.encode()), folder.file_of(name.encode()))
        self.checks.same(f"{label}: its files", self.files, folder.files())
        self.checks.same(f"{label}: check", sound(self.again), self.program.checked(folder.path))

    def start(self, label, folder):
        """A start shows what the host before showed."""
        ran = self.program.ran("run", "--dir", folder.path, given=frames(self.asks))
        self.checks.same(f"{label}: a start", (0, frames_of(self.shows)), (ran.status, ran.output))


def repacked(program, folder, words):
    return program.ran("repack", "--dir", folder.path, *words)


def wanted_of(words):
    return ["segments"] if words else ["objects"]


def show_both_ways(checks: Checks, program, work):
    """The other layout has the same files, and a start shows the same; and so back again. The layout that is there stays."""
    for label, (is_packed, words) in WAYS.items():
        kept = Kept(checks, program, os.path.join(work, label), is_packed)
        folder = kept.copy()
        checks.same(f"{label}: done", done(), repacked(program, folder, words))
        kept.judge(label, folder, wanted_of(words))
        names = {path: os.stat(os.path.join(home, path)).st_mtime_ns for home, _, files in os.walk(folder.path) for path in files}
        checks.same(f"{label}: again", done(), repacked(program, folder, words))
        again = {path: os.stat(os.path.join(home, path)).st_mtime_ns for home, _, files in os.walk(folder.path) for path in files}
        checks.same(f"{label}: what is there stays", names, again)
        back = () if words else ("--packed",)
        checks.same(f"{label}: and back", done(), repacked(program, folder, back))
        kept.judge(f"{label} and back", folder)
        kept.start(f"{label} and back", folder)
        checks.same(f"{label}: and there again", done(), repacked(program, folder, words))
        checks.same(f"{label}: its layout then", True, words_of(layout(folder)) == wanted_of(words)[0])
        ran = program.ran("run", "--dir", folder.path, given=frames(kept.asks))
        checks.same(f"{label}: a start then", (0, frames_of(kept.shows)), (ran.status, ran.output))


def show_records(checks: Checks, program, work):
    """A whole object's file is a record without a sum, and any other has one. Names ascend."""
    kept = Kept(checks, program, work, False)
    folder = kept.copy()
    checks.same("done", done(), repacked(program, folder, ("--packed",)))
    records = [record for record in folder.segments().records() if record.kind in (b"o", b"f", SHORT)][: len(kept.files)]
    wanted = [record_of(bytes.fromhex(name.decode()), data) for name, data in sorted(kept.files.items())]
    checks.same("the records", wanted, records)
    checks.same("the file that is no object's", Record(b"f", bytes.fromhex(JUNK_NAME.decode()), JUNK), next(r for r in records if r.data == JUNK))


class Repacks:
    """Repacks of copies of a folder one way, which do not end as they should."""

    def __init__(self, checks, program, work, label):
        is_packed, self.words = WAYS[label]
        self.checks, self.program, self.label = checks, program, label
        self.kept, self.calls = Kept(checks, program, work, is_packed), os.path.join(work, "calls")

    def traced(self, folder, calls, *how):
        """A repack in which calls meet this, and what comes of it; how many are traced."""
        words = ["strace", "-f", "-qq", "-o", self.calls, "-e", f"trace={calls}", *how]
        words += [self.program.path, "repack", "--dir", folder.path, *self.words]
        ran = subprocess.run(words, capture_output=True, timeout=PATIENCE)
        with open(self.calls, encoding="utf-8", errors="replace") as file:
            return Ran(ran.returncode, ran.stdout, without_cause(ran.stderr)), sum("(" in line for line in file)

    def count(self, calls):
        folder = self.kept.copy()
        _, found = self.traced(folder, calls)
        shutil.rmtree(folder.path)
        return found

    def judge(self, label, folder):
        """All is there; and the next repack does what this one was to do, and leaves nothing else."""
        label = f"{self.label}, {label}"
        self.kept.judge(label, folder)
        self.checks.same(f"{label}: the next", done(), repacked(self.program, folder, self.words))
        self.kept.judge(f"{label}, then another", folder)
        wanted = wanted_of(self.words)[0]
        self.checks.same(f"{label}: nothing else is left", [wanted], sorted({*layout(folder)} - {"swept"}))
        self.kept.start(label, folder)
        shutil.rmtree(folder.path)

    def kill_within(self, label, wait):
        folder = self.kept.copy()
        child = self.program.begun("repack", "--dir", folder.path, *self.words)
        time.sleep(wait)
        child.kill()
        child.communicate()
        self.judge(label, folder)

    def replaced(self, folder):
        """The files of the layout that a repack replaces, where they were or where it moved them."""
        old = "objects" if self.words else "segments"
        homes = folder.inside(old), folder.inside("repack", old)
        return {name for home in homes for _, _, names in os.walk(home) for name in names}

    def is_settled(self):
        """Whether the names in both folders were synced after the rename that changes the layout."""
        with open(self.calls, encoding="utf-8", errors="replace") as file:
            lines = file.read().splitlines()
        renamed = [at for at, line in enumerate(lines) if "rename(" in line and '/repack/segments"' in line]
        return bool(renamed) and sum("= 0" in line for line in lines[renamed[-1] + 1 :]) >= 2

    def inject(self, name, calls):
        """The process is killed at each call, and each call fails: that is reported, or does no harm. After a failed sync
        of the new names nothing is removed, since the power may take them."""
        for at in some_of(self.count(calls)):
            folder = self.kept.copy()
            self.traced(folder, calls, "-e", f"inject={calls}:signal=SIGKILL:when={at}")
            self.judge(f"killed at {name} {at}", folder)
            if name in FAILING:
                folder = self.kept.copy()
                before = self.replaced(folder)
                ran, _ = self.traced(folder, f"{calls},?rename", "-e", f"inject={calls}:error={FAILING[name]}:when={at}")
                self.checks.same(f"{self.label}: {name} {at} fails, {ran}", True, ran in (done(), failed("store")))
                if name == "sync" and ran == failed("store") and not self.is_settled():
                    self.checks.same(f"{self.label}: {name} {at} fails, what was there", True, before <= self.replaced(folder))
                self.judge(f"{name} {at} fails", folder)


def show_killed_repacks(checks: Checks, program, work):
    """A process that is killed at any moment leaves the one layout or the other, whole."""
    chance = random.Random(19)
    for label in WAYS:
        repacks = Repacks(checks, program, os.path.join(work, label), label)
        folder, at = repacks.kept.copy(), time.monotonic()
        checks.same(f"{label}: not killed", done(), repacked(program, folder, repacks.words))
        took = time.monotonic() - at
        for number in range(KILLS):
            repacks.kill_within(f"kill {number}", chance.uniform(0, took))


def show_injected_repacks(checks: Checks, program, work):
    """By strace a repack is killed at each call that changes the folder, and each such call fails."""
    if not shutil.which("strace"):
        raise OSError("there is no strace, by which calls are injected")
    for label in WAYS:
        repacks = Repacks(checks, program, os.path.join(work, label), label)
        for name, calls in CALLS.items():
            repacks.inject(name, calls)


def everything(path):
    """All files below a folder, with their bytes, and all folders."""
    found = {}
    for home, folders, files in os.walk(path):
        found.update({os.path.join(home, name): None for name in folders})
        found.update({os.path.join(home, name): content(os.path.join(home, name)) for name in files})
    return found


def show_refused_repacks(checks: Checks, program, work):
    """A folder that cannot be repacked is reported, and stays."""
    nowhere, empty = os.path.join(work, "nowhere"), Folder(os.path.join(work, "empty"))
    for words in ((), ("--packed",)):
        checks.same("no folder", failed("no state"), program.ran("repack", "--dir", nowhere, *words))
        checks.same("none is made", False, os.path.exists(nowhere))
        checks.same("no state", failed("no state"), repacked(program, empty, words))
        checks.same("it stays empty", [], os.listdir(empty.path))
        checks.same("no --dir", 2, program.ran("repack", *words).status)
    for label, (is_packed, words) in WAYS.items():
        kept = Kept(checks, program, os.path.join(work, label), is_packed)
        folder = kept.copy()
        live = Live(program, "--dir", folder.path)
        checks.same(f"{label}: a host", NOTHING, live.asked(HOST, b"fsck\n"))
        checks.same(f"{label}: it holds the folder", failed("store"), repacked(program, folder, words))
        checks.same(f"{label}: and goes on", NOTHING, live.asked(HOST, b"fsck\n"))
        checks.same(f"{label}: its end", done(), live.ended())
    kept = Kept(checks, program, os.path.join(work, "unsound"), False)
    lost, folder = blob(TEXTS[0]), kept.copy()
    os.remove(folder.file_of(lost))
    checks.same("a lost object is not packed", failed(f"lost {lost.decode()}"), repacked(program, folder, ("--packed",)))
    checks.same("the files stay", ["objects", "swept"], layout(folder))
    folder.keep(lost, stored(b"blob", TEXTS[0]))
    kept.judge("put back", folder, ["objects", "swept"])
    folder = kept.copy()
    write(folder.journal_path(), content(folder.journal_path())[:-1] + b"?")
    checks.same("an altered journal", failed("journal unreadable"), repacked(program, folder, ("--packed",)))
    checks.same("the files stay then", ["objects", "swept"], layout(folder))
    folder = kept.copy()
    write(folder.inside("state"), folder.state()[:-1] + b"?")
    checks.same("an altered state", 1, repacked(program, folder, ("--packed",)).status)
    checks.same("the files stay too", ["objects", "swept"], layout(folder))
    packed = Kept(checks, program, os.path.join(work, "beside"), True).copy()
    os.makedirs(packed.inside("objects", "00"))
    write(packed.inside("objects", "00", "own"), b"somebody's")
    checks.same("somebody's files are in the way", failed("store"), repacked(program, packed, ()))
    checks.same("what a packed folder has beside it stays", b"somebody's", content(packed.inside("objects", "00", "own")))


def show_mended(checks: Checks, program, work):
    """A lost object of a packed folder is put back: to files, the file, and to segments."""
    kept = Kept(checks, program, work, True)
    folder, lost = kept.copy(), blob(TEXTS[3])
    path = folder.segments().paths()[0]
    at = content(path).index(stored(b"blob", TEXTS[3]))
    write(path, flipped(content(path), at + 100))
    checks.same("it is lost", failed(f"lost {lost.decode()}"), program.checked(folder.path))
    checks.same("to files", done(), repacked(program, folder, ()))
    checks.same("it is lost still", failed(f"lost {lost.decode()}"), program.checked(folder.path))
    folder.keep(lost, stored(b"blob", TEXTS[3]))
    checks.same("it is put back", sound(kept.again), program.checked(folder.path))
    checks.same("to segments", done(), repacked(program, folder, ("--packed",)))
    kept.judge("mended", folder, ["segments"])
    kept.start("mended", folder)


def show_full_repacks(checks: Checks, program, work):
    """On a full disk the folder stays as it is, and nothing of what was being made is left."""
    for label, (is_packed, words) in WAYS.items():
        with disk(program, os.path.join(work, label), 16 << 20) as path:
            kept = Kept(checks, program, path, is_packed)
            live = Live(program, "--dir", kept.folder.path)
            for number in range(4):
                checks.same(f"{label}: more", NOTHING, live.asked(ALICE, tagged(b"%d" % number * 900_000)))
            checks.same(f"{label}: the end", done(), live.ended())
            before = kept.folder.files(), kept.folder.state(), layout(kept.folder)
            for left in (0, 100_000, 2_000_000):
                fill(os.path.join(path, "all"), left)
                room = free(path)
                checks.same(f"{label}: {left} bytes left", failed("store"), repacked(program, kept.folder, words))
                checks.same(f"{label}: all is as it was", before, (kept.folder.files(), kept.folder.state(), layout(kept.folder)))
                checks.same(f"{label}: no room is taken", True, free(path) >= room - 65_536)
                os.remove(os.path.join(path, "all"))
            checks.same(f"{label}: with room", done(), repacked(program, kept.folder, words))
            checks.same(f"{label}: the files", before[0], kept.folder.files())
            checks.same(f"{label}: check", sound(), program.checked(kept.folder.path))
