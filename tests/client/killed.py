"""Clients and hosts that are killed, and a host that is ended and begun again: the next push goes on."""
import os
import random
import signal
import time

from lib.making import commit, commit_of, hashed, history, imported, tree_of
from lib.watching import Watcher
from lib.world import World, finished, killed

KILLS = 6
PART = 1_000_000


def great(world, name, chance, count=12):
    """A commit of this many great objects, under a branch."""
    blobs = [("100644", f"f{at:02}", hashed(world, "source", "blob", chance.randbytes(PART))) for at in range(count)]
    tip = commit_of(world, "source", tree_of(world, "source", *blobs))
    world.output("source", "update-ref", f"refs/heads/{name}", tip)
    return tip


def show_kills(checks, program, folder):
    """A push is killed at random moments, and at each kind of its requests; the next one goes on."""
    world = World(checks, program, folder)
    world.init("alice", "r")
    world.repository("source")
    chance = random.Random(3)
    great(world, "main", chance)
    words = ["git", "push", "-q", world.url("r"), "main"]
    begun = time.monotonic()
    world.succeeds("a push that is not killed", world.ran(*words, at="source"))
    took = time.monotonic() - begun
    for number in range(KILLS):
        anew(world)
        child = world.begun(*words, at="source")
        time.sleep(took * chance.uniform(0.2, 1))
        killed(child)
        goes_on(world, f"kill {number}")
    show_kills_at(world)
    world.same_mirror("after kills", "source", "r")
    show_left_open(world)
    world.host.ends_well(checks, "after kills")


def anew(world):
    for words in (["drop", "r"], ["prune"], ["init", "r"]):
        world.ask("alice", *words)


def goes_on(world, label):
    """Whatever a killed push has left, the branch is there or not, and the next push brings it; what that says."""
    rows = [f"{world.name('source', 'main')} refs/heads/main"]
    world.checks.same(f"{label}: the branch is there, or not", True, world.kept("r") in ([], rows))
    ran = world.succeeds(f"{label}: the next push", world.git("source", "push", world.url("r"), "main"))
    world.checks.same(f"{label}: all is there", rows, world.kept("r"))
    return ran.fault


# The request after whose answer by the host a push is killed, which of that kind it is, and whether an upload is open.
MOMENTS = [("for-each-ref", 1, False), ("part-drop", 1, False), ("part", 1, True), ("part", 7, True)]
MOMENTS += [("part-end", 1, False)]


def show_kills_at(world):
    for word, count, is_open in MOMENTS:
        anew(world)
        seen, running = [], []

        def meddle(line, reply):
            seen.append(line.split(" ")[0])
            if seen.count(word) == count and seen[-1] == word:
                os.killpg(running[0].pid, signal.SIGKILL)
                return None
            return reply

        watcher = Watcher(world.path(f"{word}{count}"), world.host.socket, meddle)
        url = f"forkhost::{watcher.path}/alice/r"
        running.append(world.begun("git", "push", "-q", url, "main", at="source"))
        label = f"killed after {word} {count}"
        world.checks.same(f"{label}: it is killed", -signal.SIGKILL, finished(running[0]).status)
        said = goes_on(world, label)
        dropped = b"forkhost: dropped an upload that was left open\n" in said
        world.checks.same(f"{label}: an upload was open", is_open, dropped)


def show_left_open(world):
    """An upload that is left open does not hinder anything that Git does."""
    world.succeeds("a part is left", world.ask("alice", "part", given=b"create refs/heads/x "))
    tip = world.name("source", "main")
    ran = world.git("source", "push", world.url("r"), "main:refs/heads/small")
    world.checks.same("a small push goes", (0, True), (ran.status, b"dropped an upload" in ran.fault))
    world.checks.same("and is there", f"{tip} refs/heads/small", world.kept("r")[-1])
    world.checks.same("no upload is open", 1, world.ask("alice", "part-drop").status)


def show_killed_fetches(checks, program, folder):
    """A fetch is killed while its reply comes: the host serves on, and the next fetch is whole."""
    world = World(checks, program, folder)
    world.init("alice", "r")
    world.repository("source")
    chance = random.Random(4)
    great(world, "main", chance, count=20)
    world.succeeds("a push", world.git("source", "push", "-q", world.url("r"), "main"))
    world.repository("copy")
    for number in range(6):
        child = world.begun("git", "fetch", "-q", world.url("r"), "main:got", at="copy")
        time.sleep(chance.uniform(0.1, 0.5))
        killed(child)
        checks.same(f"kill {number}: the host serves", 0, world.ask("alice", "quota").status)
    world.succeeds("the fetch after them", world.git("copy", "fetch", "-q", world.url("r"), "main:got"))
    checks.same("what came", world.name("source", "main"), world.name("copy", "got"))
    checks.same("is whole", 0, world.git("copy", "fsck", "--strict", "--full").status)
    world.host.ends_well(checks, "after killed fetches")


def show_gone(checks, program, folder):
    """The host is killed in the middle of a push; it is begun again, and the push too."""
    world = World(checks, program, folder)
    world.init("alice", "r")
    world.repository("source")
    tip = great(world, "main", random.Random(5), count=10)
    world.host.ends_well(checks, "once")
    world.host.begin()
    gone = []

    def meddle(line, reply):
        if line == "part" and not gone:
            gone.append(line)
            world.host.kill()
        return reply

    watcher = Watcher(world.path("watched"), world.host.socket, meddle)
    url = f"forkhost::{watcher.path}/alice/r"
    ran = world.git("source", "push", "--porcelain", url, "main")
    is_told = b"the host ended the connection" in ran.output
    checks.same("a push to a host that goes", (1, True), (ran.status, is_told))
    ran = world.git("source", "push", "--porcelain", world.url("r"), "main")
    said = f"fatal: forkhost: cannot reach a host at '{world.host.socket}': Connection refused\n"
    checks.same("a push to one that is gone", (128, said.encode()), (ran.status, ran.fault))
    world.host.begin()
    world.succeeds("the host is begun again, and so is the push", world.git("source", "push", "-q", url, "main"))
    checks.same("all is there", [f"{tip} refs/heads/main"], world.kept("r"))
    world.same_mirror("after it was gone", "source", "r")
    world.host.ends_well(checks, "after it was gone")


def show_restart(checks, program, folder):
    """A host is ended and begun again between pushes and fetches: nothing is otherwise."""
    world = World(checks, program, folder)
    world.init("alice", "r")
    imported(world, "source", history(50))
    tip = world.name("source", "main")
    for number in range(3):
        world.succeeds(f"push {number}", world.git("source", "push", "-q", "--mirror", world.url("r")))
        if number == 0:
            world.cloned("a clone", "r", name="kept")
        before = world.kept("r")
        world.host.ends_well(checks, f"end {number}")
        world.host.begin()
        checks.same(f"start {number}: references", before, world.kept("r"))
        world.same_mirror(f"start {number}", "source", "r")
        world.succeeds(f"start {number}: a fetch", world.git("kept", "fetch", "-q"))
        checks.same(f"start {number}: what came", tip, world.name("kept", "origin/main"))
        tip = commit(world, "source", f"more{number}", tip)
    world.host.ends_well(checks, "after restarts")
