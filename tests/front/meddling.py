"""Clients that are killed, and caches that are removed, cut or filled with what is not theirs."""
import os
import random
import shutil
import signal
import time

from client.killed import anew, great
from front.front import BYTES
from lib.making import everything, line
from lib.waiting import until
from lib.watching import Watcher
from lib.world import killed

KILLS = 20


def show_killed(world):
    """A push is killed at moments over its whole length: the next one goes on, and the cache is as the host."""
    checks = world.checks
    world.apart()
    world.init("alice", "r")
    world.repository("source")
    great(world, "main", random.Random(3), count=2)
    words = ["git", "push", "-q", world.url("r"), "main"]
    begun = time.monotonic()
    world.succeeds("a push that is not killed", world.ran(*words, at="source"))
    took = time.monotonic() - begun
    rows = [f"{world.name('source', 'main')} refs/heads/main"]
    for number in range(KILLS):
        anew(world)
        child = world.begun(*words, at="source")
        time.sleep(took * (number + 0.5) / KILLS)
        killed(child)
        ran = world.git(None, "ls-remote", world.url("r"), "refs/heads/main")
        there = [row.replace("\t", " ") for row in ran.output.decode().splitlines()]
        checks.same(f"kill {number}: the branch is there, or not", (0, True), (ran.status, there in ([], rows)))
        world.succeeds(f"kill {number}: the next push", next_push(world, words))
        checks.same(f"kill {number}: all is there", rows, world.kept("r"))
        checks.same(f"kill {number}: the cache", world.reached("source"), world.in_cache())
    world.same_clone("after kills")
    left = [name for name in os.listdir(world.path(world.cache(), "objects")) if name.startswith("tmp")]
    checks.same("no quarantine is left", [], left)
    world.host.ends_well(checks, "after kills")


def next_push(world, words):
    """The push after one whose client was killed. The server may do that one all the same, and at this moment too: then
    this one is refused, since the branch is another than it was told, and is pushed again."""
    until(lambda: not servers_of(world))
    ran = world.ran(*words, at="source")
    return world.ran(*words, at="source") if b"(stale info)" in ran.fault else ran


def servers_of(world):
    """The processes of the front end of this test, with their words."""
    place = f"FORKHOST_SETTINGS={world.path('front')}".encode()
    found = {}
    for name in filter(str.isdigit, os.listdir("/proc")):
        try:
            with open(f"/proc/{name}/cmdline", "rb") as words, open(f"/proc/{name}/environ", "rb") as outer:
                if place in outer.read().split(b"\0"):
                    found[int(name)] = words.read()
        except OSError:
            pass
    return found


def hook_of(world):
    """The process of this test that asks the host for what was pushed, or nothing."""
    return next((process for process, words in servers_of(world).items() if b"proc-receive" in words), None)


def show_hook_killed(world):
    """What asks the host is killed after each of its requests: the push may be done, and the next call is right."""
    checks = world.checks
    world.init("alice", "r")
    first, second, third = line(world, world.repository("source"), "one", "two", "three")
    world.succeeds("a first push", world.git("source", "push", "-q", world.url("r"), f"{first}:refs/heads/main"))
    moments = {"for-each-ref": (second, False), "part-drop": (second, False), "push": (second, True)}
    for word, (tip, is_done) in moments.items():
        killed_at = []

        def meddle(asked, reply):
            hook = hook_of(world)
            if hook and asked.split(" ")[0] == word:
                # Before the kill, as the push may have ended before this thread goes on.
                killed_at.append(asked)
                os.kill(hook, signal.SIGKILL)
            return reply

        world.set(BYTES, Watcher(world.path(f"watched_{word}"), world.host.socket, meddle).path)
        ran = world.git("source", "push", "--porcelain", world.url("r"), f"{tip}:refs/heads/main")
        checks.same(f"killed after {word}: it is", (1, 1), (ran.status, len(killed_at)))
        world.set(BYTES)
        wanted = [f"{tip if is_done else first} refs/heads/main"]
        checks.same(f"killed after {word}: the host", wanted, world.kept("r"))
        copy = world.cloned(f"killed after {word}: a clone", "r")
        checks.same(f"killed after {word}: what it has", wanted[0].split()[0], world.name(copy, "origin/main"))
        checks.same(f"killed after {word}: the cache", world.reached(world.cache()), world.in_cache())
    world.succeeds("the next push", world.git("source", "push", "-q", world.url("r"), f"{third}:refs/heads/main"))
    world.same_clone("after a hook was killed")
    world.host.ends_well(checks, "after a hook was killed")


def show_packs(world):
    """Each push brings a pack: when they are many they are made fewer, and nothing is made again."""
    checks = world.checks
    world.init("alice", "r")
    names = line(world, world.repository("source"), *(f"c{at}" for at in range(52)))
    most = 0
    for name in names:
        world.output("source", "push", "-q", world.url("r"), f"{name}:refs/heads/main")
        most = max(most, len(packs(world.cache(), ".pack")))
    checks.same("they were many", True, most > 40)
    checks.same("and are few", True, len(packs(world.cache(), ".pack")) < 20)
    world.same_clone("after many packs")
    checks.same("nothing was made anew", [], [row for row in world.logged() if row[1] == "cache"])
    world.host.ends_well(checks, "after many packs")


def packs(cache, ending):
    folder = os.path.join(cache, "objects", "pack")
    return [os.path.join(folder, name) for name in sorted(os.listdir(folder)) if name.endswith(ending)]


def cut(path):
    os.truncate(path, os.path.getsize(path) // 2)


def alter(path):
    """One byte in the middle is another one; the length stays."""
    os.chmod(path, 0o600)
    with open(path, "r+b") as file:
        file.seek(os.path.getsize(path) // 2)
        byte = file.read(1)
        file.seek(-1, os.SEEK_CUR)
        file.write(bytes([byte[0] ^ 255]))


def put(path, text):
    with open(path, "w", encoding="utf-8") as file:
        file.write(text)


def with_packs(cache, other):
    for path in packs(other, ""):
        shutil.copy(path, os.path.join(cache, "objects", "pack"))


def of_other_packs(cache, other):
    for path in packs(cache, ""):
        os.remove(path)
    with_packs(cache, other)


def in_place(cache, other):
    shutil.rmtree(cache)
    shutil.copytree(other, cache)


def file_in_place(cache, other):
    shutil.rmtree(cache)
    put(cache, "file\n")


def link_in_place(cache, other):
    shutil.rmtree(cache)
    os.symlink(other, cache)


# What is done to a cache beside another one, and whether the cache is made again.
DEEDS = {
    "it is removed": (lambda cache, other: shutil.rmtree(cache), False),
    "a pack is cut": (lambda cache, other: cut(packs(cache, ".pack")[0]), True),
    "an index is gone": (lambda cache, other: os.remove(packs(cache, ".idx")[0]), True),
    "HEAD is empty": (lambda cache, other: put(os.path.join(cache, "HEAD"), ""), True),
    "its configuration is cut": (lambda cache, other: cut(os.path.join(cache, "config")), True),
    "its seal is gone": (lambda cache, other: os.remove(os.path.join(cache, "seal")), True),
    "its seal is cut": (lambda cache, other: cut(os.path.join(cache, "seal")), True),
    "a reference is none": (lambda cache, other: put(os.path.join(cache, "refs/heads/main"), "nothing\n"), True),
    "references are cut": (lambda cache, other: put(os.path.join(cache, "packed-refs"), "0123"), True),
    "its packs are gone": (lambda cache, other: shutil.rmtree(os.path.join(cache, "objects", "pack")), True),
    "its references are gone": (lambda cache, other: shutil.rmtree(os.path.join(cache, "refs")), True),
    "a file is in its place": (file_in_place, True),
    "a link is in its place": (link_in_place, True),
    "another repository's packs are beside its own": (with_packs, False),
    "another repository's packs are in the place of its own": (of_other_packs, True),
    "another repository's cache is in its place": (in_place, True),
    "it lends another repository's objects": (
        lambda cache, other: put(os.path.join(cache, "objects/info/alternates"), os.path.join(other, "objects\n")),
        False,
    ),
}


def show_damage(world):
    """Whatever is done to a cache, the next clone is right, and the cache has the repository's objects alone."""
    checks = world.checks
    world.init("alice", "r")
    world.init("bob", "s")
    everything(world, "source")
    line(world, world.repository("other"), "secret")
    world.succeeds("alice pushes", world.git("source", "push", "-q", "--mirror", world.url("r")))
    world.succeeds("bob pushes", world.git("other", "push", "-q", "--mirror", world.url("s", "bob")))
    secret = world.name("other", "main")
    for label, (deed, is_anew) in DEEDS.items():
        world.logged()
        deed(world.cache(), world.cache("s", "bob"))
        world.same_clone(label)
        told = [row for row in world.logged() if row[1:4] == ["cache", "r", "made-anew"]]
        checks.same(f"{label}: the log tells what was made anew", is_anew, len(told) == 1 and len(told[0]) > 4)
        ran = world.git(world.repository("thief"), "fetch", world.url("r"), secret)
        checks.same(f"{label}: bob's commit is not there", True, ran.status != 0)
    world.succeeds("nothing is in doubt", world.git(None, "ls-remote", world.url("r")))
    alter(max(packs(world.cache(), ".pack"), key=os.path.getsize))
    world.remove("copy")
    ran = world.git(None, "clone", "-q", "--mirror", world.url("r"), "copy")
    checks.same("a byte is another one: a clone does not end well", True, ran.status != 0)
    world.logged()
    world.same_clone("the clone after it")
    told = [row[1:4] for row in world.logged()]
    checks.same("the log tells it", True, ["cache", "r", "made-anew"] in told)
    world.host.ends_well(checks, "after damage")
