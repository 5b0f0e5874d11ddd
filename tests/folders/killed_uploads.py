"""Hosts that are killed while tenants have uploads of some MiB: at any moment, and at each call of a saving that writes a log."""
import collections
import os
import random
import re
import shutil
import time

from folders.journals import killed
from folders.sweeps import HOST
from folders.upload_logs import ALICE, BOB, COUNT, ZOE, Traced, blob, body_of, parts_of, without_reserve
from lib.folder import Folder, content
from lib.frames import frames, replies
from lib.live import Live, Serving, to_end
from lib.objects import record
from lib.program import done, sound
from lib.waiting import until

WHO = [ALICE, BOB, b"carol"]
GRANTS = [f"{who.decode()}=100000000" for who in WHO] + ["zoe=1000"]
INITS = [(who, b"init r\n") for who in (*WHO, ZOE)]
KILLS, CONNECTIONS = 12, 6
LARGEST = 500_000
LAST = [(who, ask) for who in WHO for ask in (b"push r\n\n", b"part-end r\n", b"quota\n")]
ASKS = [(HOST, b"tenants\n"), *LAST, (HOST, b"fsck\n")]


def sweep(number):
    """Takes something from the folder, so that the state is saved after the connection."""
    return [(ZOE, b"push r\n\n" + record(b"blob", b"spare %d" % number)), (ZOE, b"prune\n"), (HOST, b"collect\n")]


def connect(serving, turns, wait=None):
    """One connection, during which the host may be killed, or end; how many replies came."""
    try:
        with serving.client() as stream:
            stream.sendall(frames(turns))
            if wait is not None:
                time.sleep(wait)
                serving.child.kill()
            stream.shutdown(1)
            return len(replies(to_end(stream))[0])
    except OSError:
        return 0


class Known:
    """What hosts show that were never killed."""

    def __init__(self, checks, program):
        self.checks, self.program, self.shown = checks, program, {}

    def shows(self, asked):
        """What one in memory shows that was asked this."""
        given = frames(asked + ASKS)
        if given not in self.shown:
            self.shown[given] = replies(self.program.ran("run", *GRANTS, given=given).output)[0][-len(ASKS) :]
        return self.shown[given]

    def look(self, label, folder, asked, rest):
        """A start shows what was asked, perhaps with the first of the rest, which was not answered. What was asked so."""
        self.checks.same(f"{label}: check", sound(folder.again()), self.program.checked(folder.path))
        copy = shutil.copytree(folder.path, folder.path + "-copy")
        ran = self.program.ran("run", "--dir", copy, given=frames(ASKS))
        shutil.rmtree(copy)
        self.checks.same(f"{label}: its end", done(), ran._replace(output=b""))
        pasts = [asked, asked + rest[:1]] if rest else [asked]
        right = next((past for past in pasts if replies(ran.output)[0] == self.shows(past)), None)
        self.checks.same(f"{label}: what it shows", True, right is not None)
        return right or asked


def sent_by(who, asked):
    """How many uploads a tenant ended or dropped, and how many bytes it sent since."""
    count = length = 0
    for payload in (payload for asker, payload in asked if asker == who):
        word, _, rest = payload.partition(b"\n")
        if word == b"part":
            length += len(rest)
        elif word.startswith(b"part-"):
            count, length = count + 1, 0
    return count, length


def next_of(who, asked, chance):
    """What a tenant asks next, after all that it asked: most often a piece of its upload, which ends anywhere."""
    count, length = sent_by(who, asked)
    sizes, records, ends = random.Random(f"{who} {count}"), [b"\n"], [1]
    while ends[-1] < length + LARGEST:
        records.append(record(*blob(f"{who} {count}", len(ends), sizes.choice([5, 1000, 200_000]))))
        ends.append(ends[-1] + len(records[-1]))
    body, whole = b"".join(records), next(end for end in ends if end >= length)
    piece = body[length : length + chance.randint(0, LARGEST)]
    ways = [[b"part\n" + piece]] * 12 + [[b"part\n" + body[length:whole], b"part-end r\n"]] * 2
    ways += [[b"part-end r\n"], [b"part-drop\n"], [b"part\nno record\n"]]
    return [(who, payload) for payload in chance.choice(ways)]


class Life:
    """A host at a socket, and what it was asked so far."""

    def __init__(self, checks, program, work, seed):
        self.checks, self.program, self.work, self.chance = checks, program, work, random.Random(seed)
        self.folder, self.known, self.asked = without_reserve(os.path.join(work, "kept")), Known(checks, program), INITS
        self.spares, self.logs = 0, set()
        self.start(GRANTS)
        connect(self.serving, INITS)

    def start(self, grants=()):
        self.serving = Serving(self.program, os.path.join(self.work, "socket"), 1_000_000, "--dir", self.folder.path, *grants)

    def turns(self):
        """Some requests of all tenants, and often a sweep that takes something."""
        found = []
        for _ in range(self.chance.randint(0, 4)):
            found += next_of(self.chance.choice(WHO), self.asked + found, self.chance)
        if self.chance.random() < 0.6:
            self.spares += 1
            found += sweep(self.spares)
        return found

    def leg(self, label):
        """Some connections, and a kill within the last one or after it."""
        for _ in range(self.chance.randint(1, CONNECTIONS)):
            turns = self.turns()
            self.checks.same(f"{label}: all is answered", len(turns), connect(self.serving, turns))
            self.asked = self.asked + turns
        self.logs.update(self.folder.logs())
        turns = self.turns() if self.chance.random() < 0.5 else []
        count = connect(self.serving, turns, self.chance.uniform(0, 0.1))
        self.serving.child.communicate()
        self.asked = self.known.look(label, self.folder, self.asked + turns[:count], turns[count:])
        self.start()


def show_killed_uploads(checks, program, work):
    """After kills at any moment uploads go on, and their ends do what they do on a host that was never killed."""
    life = Life(checks, program, work, 7)
    for number in range(KILLS):
        life.leg(f"kill {number}")
    checks.same("logs were there", True, bool(life.logs))


NAMES = "write,writev,pwrite64,ftruncate,rename,renameat,renameat2,unlink,unlinkat,fsync,fdatasync"
LINE = re.compile(r"^\d+ +(\w+)\(", re.MULTILINE)
OPENED = [*INITS, *parts_of(ALICE, body_of("alice", COUNT)), (BOB, b"part\nabc")]
FEW, MANY = (parts_of(ALICE, body_of(f"{count} more", count)[1:]) for count in (3, COUNT + 1))
QUOTA = [(ZOE, b"quota\n")]
# Connections, each of which ends with a saving: a log is begun; it is appended to; the other one is begun; none is left.
SAVED = [sweep(1), [(BOB, b"part-drop\n"), *FEW, *sweep(2)], [(BOB, b"part\nabc"), *MANY, *sweep(3)], [(ALICE, b"part-drop\n"), (BOB, b"part-drop\n"), *sweep(4)]]
LOGS = [[1], [1], [2], []]


def counts_of(path):
    """How many calls of each name a log of strace has."""
    return collections.Counter(LINE.findall(content(path).decode("ascii", "replace")))


def saving_calls(checks, program, folder, work):
    """The calls of each saving: its number, the name, and how many of this name the process had made with it."""
    path, found = os.path.join(work, "calls"), []
    serving = Serving(Traced(program, path, "-e", f"trace={NAMES}"), os.path.join(work, "socket"), 1_000_000, "--dir", folder.path)
    for number, (turns, logs) in enumerate(zip(SAVED, LOGS)):
        with serving.client() as stream, stream.makefile("rb") as reader:
            stream.sendall(frames(turns))
            for _ in turns:
                reader.read(int(reader.readline()))
            before = counts_of(path)
        connect(serving, QUOTA)
        checks.same(f"logs after saving {number}", logs, folder.logs())
        after = counts_of(path)
        for name in sorted(after):
            calls = range(before[name] + 1, after[name] + 1)
            some = {calls[0], calls[-1]} if calls else ()
            found += [(number, name, at) for at in sorted(some)]
    serving.child.kill()
    return found


def show_killed_savings(checks, program, work):
    """By strace a host is killed at calls of savings that write logs of uploads: of each kind at the first and the last."""
    base, known = without_reserve(os.path.join(work, "base")), Known(checks, program)
    live = Live(program, "--dir", base.path, *GRANTS)
    checks.same("uploads", {b"ok\n"}, {live.asked(*turn) for turn in OPENED})
    killed(live)
    copy = lambda number: Folder(shutil.copytree(base.path, os.path.join(work, str(number))))
    calls = saving_calls(checks, program, copy("traced"), work)
    for number, (saving, name, at) in enumerate(calls):
        folder, asked, rest, label = copy(number), OPENED, [], f"saving {saving}, killed at {name} {at}"
        traced = Traced(program, os.devnull, "-e", f"trace={name}", "-e", f"inject={name}:signal=SIGKILL:when={at}")
        serving = Serving(traced, os.path.join(work, "socket"), 1_000_000, "--dir", folder.path)
        for turns in SAVED:
            count = connect(serving, turns)
            asked, rest = asked + turns[:count], turns[count:]
            if rest or not connect(serving, QUOTA):
                break
        checks.same(f"{label}: it is killed", -9, until(serving.child.poll))
        serving.child.kill()
        serving.child.communicate()
        known.look(label, folder, asked, rest)
        shutil.rmtree(folder.path)
    print(f"{checks.kind}killed at {len(calls)} calls of savings with logs", flush=True)
