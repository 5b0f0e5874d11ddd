"""Packs that the helper puts into a repository: they are as Git's own, and have no object under another one's name."""
import os
import random
import stat

from lib.making import commit_of, hashed, line, tree_of
from lib.watching import Watcher
from lib.world import World


def packs(world, at, ending):
    folder = world.path(at, "objects", "pack")
    return sorted(os.path.join(folder, name) for name in os.listdir(folder) if name.endswith(ending))


def show_packs(checks, program, folder):
    """More than is packed at once, a tree that is long, and objects of no bytes: the index is the one that Git makes."""
    world = World(checks, program, folder)
    world.init("alice", "r")
    world.repository("source")
    chance = random.Random(8)
    blobs = [hashed(world, "source", "blob", chance.randbytes(250_000) + b"x" * 250_000) for _ in range(12)]
    entries = [("100644", f"f{at:04}", blobs[at % 12]) for at in range(2000)]
    empty = ("100644", "z", hashed(world, "source", "blob", b""))
    tip = commit_of(world, "source", tree_of(world, "source", *entries, empty))
    world.output("source", "update-ref", "refs/heads/main", tip)
    world.succeeds("a push", world.git("source", "push", "-q", world.url("r"), "main"))
    copy = world.cloned("a clone", "r", "--bare")
    (pack,), (index,) = packs(world, copy, ".pack"), packs(world, copy, ".idx")
    world.output(copy, "index-pack", "--no-rev-index", "-o", world.path("index"), pack)
    checks.same("the index is as Git makes it", contents(world.path("index")), contents(index))
    checks.same("and the name", True, world.output(copy, "index-pack", "-o", world.path("index"), pack) in pack)
    again = world.git(copy, "fetch", "-q", "--refetch", world.url("r"), "main")
    world.succeeds("it comes once more", again)
    world.sound("a pack that is there", copy)
    show_modes(world)
    world.host.ends_well(checks, "after packs")


def contents(path):
    with open(path, "rb") as file:
        return file.read()


def show_modes(world):
    """Files are read by whom the umask lets read, and in a repository that is shared by its group too."""
    for words, wanted in (([], 0o400), (["-c", "core.sharedRepository=group"], 0o440)):
        world.remove("copy")
        clone = ["git", *words, "clone", "-q", "--bare", *words, world.url("r"), "copy"]
        ran = world.ran("sh", "-c", 'umask 077; exec "$@"', "sh", *clone)
        world.succeeds(f"a clone {words}", ran)
        modes = {stat.S_IMODE(os.stat(path).st_mode) for end in (".pack", ".idx") for path in packs(world, "copy", end)}
        world.checks.same(f"a clone {words}: modes", {wanted}, modes)
        world.sound(f"a clone {words}", "copy")


def show_altered(checks, program, folder):
    """Another object under a name that was asked for is not taken, and nothing stays of it."""
    world = World(checks, program, folder)
    world.init("alice", "r")
    line(world, world.repository("source"), "one", "two")
    world.succeeds("a push", world.git("source", "push", "-q", world.url("r"), "main"))
    name = world.name("source", "main:two.txt")
    kinds = {"a blob": (b"\ntwo\n\n", b"\ntow\n\n"), "another type": (b" blob 4\ntwo", b" tree 4\ntwo")}
    kinds["another name"] = (name.encode() + b" blob", name[:-1].encode() + b"%x blob" % (int(name[-1], 16) ^ 1))
    for label, (old, new) in kinds.items():
        meddle = lambda line, reply: reply.replace(old, new) if line.startswith("fetch") else reply
        url = f"forkhost::{Watcher(world.path(label), world.host.socket, meddle).path}/alice/r"
        for words in (["clone", "-q", url, "copy"], ["fetch", "-q", url, "main"]):
            at = world.repository("into") if words[0] == "fetch" else None
            ran = world.git(at, *words)
            told = (ran.status, b"fatal: forkhost: the host sent another object for " in ran.fault)
            checks.same(f"{label}: {words[0]}", (128, True), told)
            left = world.objects(at) if at else [name for name in os.listdir(world.folder) if name == "copy"]
            checks.same(f"{label}: {words[0]}: nothing stays", [], left)
            world.remove("into")
    world.host.ends_well(checks, "after what was altered")
