"""Processes that are killed: at any moment, and at each call that changes the folder."""
import os
import random
import shutil
import subprocess
import time

from folders.asking import History
from folders.sweeps import HOST, of_tenants, plain
from lib.folder import Folder, requests_in
from lib.frames import framed, frames, replies
from lib.objects import whole
from lib.program import PATIENCE, Ran, done, sound, without_cause

KILLS = 150
SAVES = 150
CALLS = {
    "rename": "?rename,?renameat,?renameat2",
    "sync": "?fsync,?fdatasync",
    "mkdir": "?mkdir,?mkdirat",
    "write": "?write,?writev,?pwrite64",
    "close": "?close",
    "unlink": "?unlink,?unlinkat",
}
EACH = 12
LAST = 4
SPARE = 20
MOST = 2000
HOST_STORE = b"host store\n"


class Killed:
    """A folder to begin with, a session over it that sweeps what the folder's state still names, and the state that the
    session leaves. Of the folder's objects one in this many was swept since its state was saved, or none."""

    def __init__(self, checks, program, work, count, swept=0):
        self.checks, self.program, self.work, self.number, self.step = checks, program, work, 0, swept
        history = History(random.Random(count), count)
        places = [b"init r\n", b"init s\n"]
        spare = [history.add(b"blob", b"spare %d\n" % number) for number in range(SPARE)]
        self.first = [(b"alice", payload) for payload in places] + [self.push(history, 0, b"r")]
        self.first.append((b"alice", b"push r\n" + history.body([], spare)))
        self.turns = [(b"alice", b"prune\n"), *(self.push(history, at, b"s") for at in range(1, count))]
        self.turns += [(b"alice", b"drop r\n"), (b"alice", b"init t\n")]
        self.asked = [asked for turn in self.turns for asked in (turn, (HOST, b"sweep 7\n"))] + [(HOST, b"collect\n")]
        self.base = Folder(os.path.join(work, f"base{count}-{swept}"))
        words = ["--dir", self.base.path, "alice=1000000"]
        checks.same("the session before", b"ok\n" * 4, self.told(program.ran("run", *words, given=frames(self.first))))
        self.old = self.base.state()
        folder = self.copy()
        begun = time.monotonic()
        ran = program.ran("run", "--dir", folder.path, given=frames(self.asked))
        self.took = time.monotonic() - begun
        self.replies = replies(ran.output)[0]
        self.new, self.wanted = folder.state(), of_tenants(self.asked, self.replies)
        checks.same("the session", [b"ok\n"] * len(self.turns), self.wanted)
        swept = [b"a count"] * (len(self.turns) + 1)
        checks.same("its sweeps", swept, [reply for reply in plain(self.asked, self.replies) if reply != b"ok\n"])
        checks.same("what they took away", SPARE, sum(int(reply[3:]) for reply in self.replies if reply != b"ok\n"))

    def push(self, history, at, place):
        """A push of all that one commit leads to, under a name of its own."""
        tip = history.tips[at]
        command = b"create refs/heads/%d %s" % (at, tip)
        return b"alice", b"push %s\n%s" % (place, history.body([command], sorted(history.closure(tip))))

    def told(self, ran):
        return b"".join(replies(ran.output)[0])

    def copy(self):
        """The folder to begin with, made again."""
        self.number += 1
        path = os.path.join(self.work, f"{os.path.basename(self.base.path)}-{self.number}")
        folder = Folder(shutil.copytree(self.base.path, path))
        for name in sorted(folder.files())[:: self.step] if self.step else []:
            folder.sweep(name)
        return folder

    def judge(self, label, folder, came=None):
        """What is left is the old state or the new one, a journal of the requests that were done, and whole files; and
        a next start goes on after these. Where replies came, their requests were done, and one more at the most."""
        state = folder.state()
        if state not in (self.old, self.new):
            self.checks.same(f"{label}: the state", self.old, state)
            return
        went = len(requests_in(folder.journal())) if state == self.old else len(self.turns)
        if came is not None:
            came = of_tenants(self.asked, came)
            self.checks.same(f"{label}: {went} done after {len(came)} replies", True, went - len(came) in (0, 1))
            self.checks.same(f"{label}: the replies", self.wanted[: len(came)], came)
        torn = [name for name, file in folder.files().items() if not whole(name, file)]
        self.checks.same(f"{label}: files that are torn", [], torn)
        self.checks.same(f"{label}: check", sound(folder.again()), self.program.checked(folder.path))
        self.checks.same(f"{label}: what was being written", [], folder.parts())
        # A start over segments writes nothing: removals of which no state knows stay, undone, in them.
        if not folder.segments():
            self.checks.same(f"{label}: what was swept is back", [], folder.swept())
        again = self.program.ran("run", "--dir", folder.path, given=frames(self.turns[went:]))
        rest = b"".join(map(framed, self.wanted[went:]))
        self.checks.same(f"{label}: the rest of the session", done(rest), again)
        self.checks.same(f"{label}: its state", self.new, folder.state())
        shutil.rmtree(folder.path)

    def kill_within(self, label, wait):
        """A run that is killed some time after its start."""
        folder = self.copy()
        child = self.program.begun("run", "--dir", folder.path)
        try:
            output, _ = child.communicate(frames(self.asked), timeout=wait)
        except subprocess.TimeoutExpired:
            child.kill()
            output, _ = child.communicate()
        self.judge(label, folder, replies(output)[0])

    def kill_saving(self, label, wait):
        """A run that is killed some time after its last reply and the end of its input."""
        folder = self.copy()
        child = self.program.begun("run", "--dir", folder.path)
        child.stdin.write(frames(self.asked))
        child.stdin.flush()
        child.stdout.read(sum(len(framed(reply)) for reply in self.replies))
        child.stdin.close()
        time.sleep(wait)
        child.kill()
        child.wait()
        child.stdout.close()
        child.stderr.close()
        self.judge(label, folder)

    def traced(self, folder, calls, how):
        """A run in which the calls meet this, and what comes of it."""
        words = ["strace", "-f", "-qq", "-o", os.devnull, "-e", f"trace={calls}", "-e", f"inject={calls}:{how}"]
        words += [self.program.path, "run", "--dir", folder.path]
        ran = subprocess.run(words, input=frames(self.asked), capture_output=True, timeout=PATIENCE)
        return Ran(ran.returncode, ran.stdout, without_cause(ran.stderr))


def show_kills(checks, program, work):
    chance = random.Random(11)
    killed = Killed(checks, program, work, 40, swept=2)
    for number in range(KILLS):
        killed.kill_within(f"kill {number}", chance.uniform(0, killed.took * 1.1))
    for number in range(SAVES):
        killed.kill_saving(f"kill in a save, {number}", chance.uniform(0, killed.took / 5) if number else 0)


def some_of(count):
    """The numbers of some calls: the first, the last ones, and others between."""
    spread = {1 + (count - 1) * at // (EACH - 1) for at in range(EACH)}
    return sorted(spread | set(range(max(1, count - LAST), count))) if count else []


def counted(killed, calls):
    """How many such calls a run makes."""
    folder, path = killed.copy(), os.path.join(killed.work, "calls")
    words = ["strace", "-f", "-qq", "-o", path, "-e", f"trace={calls}", killed.program.path, "run", "--dir"]
    subprocess.run([*words, folder.path], input=frames(killed.asked), capture_output=True, timeout=PATIENCE)
    shutil.rmtree(folder.path)
    with open(path, encoding="utf-8", errors="replace") as file:
        return min(sum("(" in line for line in file), MOST)


def show_injected(checks, program, work):
    """By strace the process is killed at each call, and each call fails."""
    if not shutil.which("strace"):
        raise OSError("there is no strace, by which calls are injected")
    for swept in (0, 2):
        inject(checks, Killed(checks, program, work, 4, swept))


def inject(checks, killed):
    for name, calls in CALLS.items():
        for at in some_of(counted(killed, calls)):
            folder = killed.copy()
            killed.traced(folder, calls, f"signal=SIGKILL:when={at}")
            killed.judge(f"killed at {name} {at}", folder)
    for name in ("rename", "sync", "mkdir", "unlink"):
        for at in some_of(counted(killed, CALLS[name])):
            folder = killed.copy()
            ran = killed.traced(folder, CALLS[name], f"error=EIO:when={at}")
            judge_failed(killed, f"{name} {at} fails", folder, ran)


def judge_failed(killed, label, folder, ran):
    """A request was met by `host store`, or the start or the save failed, and that was told; nothing else changed."""
    told, _ = replies(ran.output)
    faults = {b"": 0, b"forkhost: store\n": 1, b"forkhost: state not saved\n": 1}
    killed.checks.same(f"{label}: its end, {ran.fault!r}", faults.get(ran.fault), ran.status)
    if ran.fault or HOST_STORE not in told:
        killed.judge(label, folder)
        return
    kept = [turn for turn, reply in zip(killed.asked, told) if reply != HOST_STORE]
    other = killed.copy()
    again = killed.program.ran("run", "--dir", other.path, given=frames(kept))
    others = plain(kept, [reply for reply in told if reply != HOST_STORE])
    killed.checks.same(f"{label}: the other replies", others, plain(kept, replies(again.output)[0]))
    killed.checks.same(f"{label}: the state", other.state(), folder.state())
    killed.checks.same(f"{label}: check", sound(), killed.program.checked(folder.path))
