"""What a push and a start on another machine cost, with segments and with a file for each object, beside a disk of the computer."""
import os
import random
import time

from lib.frames import frames
from lib.objects import record
from machines.box import DATA
from machines.machine import Host
from machines.user import GRANT, WHO

SIZE, PART = 300, 1_000_000
# So many blobs are pushed with segments, and with a file for each, at each time that a round trip takes more.
COUNTS = {0: (10_000, 1_000), 1: (10_000, 1_000), 5: (10_000, 500), 100: (10_000, 50)}
WHAT = ("a push", "a start")
KINDS = (("segments", ("--packed", "--sync")), ("files", ("--sync",)))


def body(count):
    chance = random.Random(count)
    return b"\n" + b"".join(record(b"blob", chance.randbytes(SIZE)) for _ in range(count))


def pushed(host, count):
    """Seconds until a push in parts is answered."""
    sent = body(count)
    parts = [(WHO, b"part\n" + sent[at : at + PART]) for at in range(0, len(sent), PART)]
    turns = frames([(WHO, b"init r\n"), *parts, (WHO, b"part-end r\n")])
    begun = time.monotonic()
    told = host.told(turns)
    took = time.monotonic() - begun
    return took, told == b"3\nok\n" * (len(parts) + 2)


def timed(world, folder, other, count):
    """Seconds of a push on the first machine, and of a start on another one after a kill."""
    first = Host(world.one, folder, GRANT)
    took, is_right = pushed(first, count)
    world.checks.same(f"{folder}: a push", True, is_right)
    first.child.kill()
    first.child.communicate()
    begun = time.monotonic()
    second = Host(other, folder)
    started = time.monotonic() - begun
    world.checks.same(f"{folder}: a start", None, second.child.poll())
    second.child.kill()
    second.child.communicate()
    return took, started


def show_costs(world):
    for milliseconds, counts in COUNTS.items():
        world.network.hold(milliseconds)
        each = {}
        for (kind, words), count in zip(KINDS, counts):
            world.use(*words)
            there = timed(world, f"{kind}{milliseconds}", world.two, count)
            here = timed(world, os.path.join(DATA, f"{kind}{milliseconds}"), world.one, count)
            each[kind] = [took / count * 1000 for took in there]
            said = [f"{what} {far:.2f} s, {far / near:.1f} times that on a disk" for what, far, near in zip(WHAT, there, here)]
            print(f"{milliseconds} ms, {kind}, {count} blobs: {', '.join(said)}", flush=True)
        less = [loose / packed for loose, packed in zip(each["files"], each["segments"])]
        said = [f"{what} {ratio:.0f} times as long" for what, ratio in zip(WHAT, less)]
        print(f"{milliseconds} ms: with files each blob takes, of {', of '.join(said)}", flush=True)
    world.network.hold(0)
    world.use("--packed", "--sync")
