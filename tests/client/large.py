"""Pushes at the edges of a frame and of an upload, and above them."""
import os
import random

from lib.making import commit_of, hashed, tree_of
from lib.watching import Watcher
from lib.world import World

MAX_PAYLOAD, MAX_UPLOAD, MAX_CONTENT = 1_048_576, 33_554_432, 8_388_608
ZERO = "0" * 64


class Pushed:
    """Blobs that are pushed by tags, one push each, through a watched socket."""

    def __init__(self, world):
        self.world = world
        world.init("alice", "r")
        world.repository("source")
        self.watcher = Watcher(world.path("watched"), world.host.socket)
        self.url = f"forkhost::{self.watcher.path}/alice/r"
        self.chance = random.Random(1)

    def blob(self, length):
        return hashed(self.world, "source", "blob", self.chance.randbytes(length))

    def words(self, label, *refs):
        """The requests of a push but those that look."""
        ran = self.world.git("source", "push", "-q", self.url, *refs)
        self.world.succeeds(label, ran)
        asked = [one for one in self.watcher.taken() if one.word() in ("push", "part", "part-end")]
        self.world.checks.same(f"{label}: no frame is too long", True, max(one.length for one in asked) <= MAX_PAYLOAD)
        return asked


def of_length(total, ref, commands_alone=0):
    """The length of a blob whose record and command fill a body of this length."""
    command = f"update {ref} {ZERO} {ZERO}\n"
    guess = total - len(command) - 1 - len(f"{ZERO} blob {total}\n") - 1
    return guess


def show_edges(checks, program, folder):
    """A push that just fits into a frame, and one that does not; likewise an upload."""
    world = World(checks, program, folder)
    pushed = Pushed(world)
    for over in (-1, 0, 1):
        ref = f"refs/tags/frame{over + 1}"
        length = of_length(MAX_PAYLOAD - len("push r\n") + over, ref)
        asked = pushed.words(f"a frame and {over}", f"{pushed.blob(length)}:{ref}")
        wanted = ["push"] if over <= 0 else ["part", "part-end"]
        checks.same(f"a frame and {over}: its requests", wanted, [one.word() for one in asked])
        if over <= 0:
            checks.same(f"a frame and {over}: its length", MAX_PAYLOAD + over, asked[0].length)
    for over in (0, 1):
        ref = f"refs/tags/upload{over}"
        tree, length = filled(world, pushed, ref, MAX_UPLOAD + over)
        asked = pushed.words(f"an upload and {over}", f"{tree}:{ref}")
        words = [one.word() for one in asked]
        sizes = sum(one.length - len("part\n") for one in asked if one.word() == "part")
        ends = words.count("part-end") + words.count("push")
        checks.same(f"an upload and {over}: how many", 1 if over <= 0 else 2, ends)
        if over <= 0:
            checks.same(f"an upload and {over}: its length", MAX_UPLOAD + over, sizes)
    copy = world.cloned("all of it", "r", "--mirror")
    checks.same("all objects", 3 + 2 * 5, len(world.objects(copy)))
    world.host.ends_well(checks, "after edges")


def filled(world, pushed, ref, total):
    """A tree with four blobs, of which one is as long as it takes."""
    blobs = [pushed.blob(MAX_CONTENT) for _ in range(3)]
    entries = lambda last: [("100644", f"f{at}", name) for at, name in enumerate([*blobs, last])]
    raw = 4 * (len("100644 f0") + 1 + 32)
    tree = len(f"{ZERO} tree {raw}\n") + raw + 1
    before = tree + 3 * (len(f"{ZERO} blob {MAX_CONTENT}\n") + MAX_CONTENT + 1)
    last = pushed.blob(of_length(total - before, ref))
    return tree_of(world, "source", *entries(last)), last


def nested(world, chance, depth, width):
    """A tree in a tree and so on, each with this many gitlinks beside. The name of the outer one."""
    links = [("160000", f"l{at:04}", f"{chance.getrandbits(256):064x}") for at in range(width)]
    inner = tree_of(world, "source", *links)
    for level in range(depth):
        inner = tree_of(world, "source", ("40000", f"d{level:03}", inner), *links)
    return inner


def messages(chance, tip, count, length):
    """A stream of commits with long messages."""
    for number in range(count):
        yield f"commit refs/heads/long\ncommitter Ada <a@x> {1_700_000_100 + number} +0000\ndata {length}\n".encode()
        yield chance.randbytes(length // 2).hex().encode() + b"\n"
        yield f"from {tip}\n".encode() if number == 0 else b""


def tags(world, chance, inner, count, length):
    """Tags of tags with long messages. The name of the outer one."""
    for number in range(count):
        kind, text = "tag" if number else "commit", chance.randbytes(length // 2).hex()
        raw = f"object {inner}\ntype {kind}\ntag t{number}\ntagger Ada <a@x> 1 +0000\n\n{text}\n"
        inner = hashed(world, "source", "tag", raw.encode())
    return inner


def show_uploads(checks, program, folder):
    """A push of several uploads: trees in trees, commits and tags of tags stand at their edges."""
    world = World(checks, program, folder)
    pushed = Pushed(world)
    chance = random.Random(7)
    blobs = [("100644", f"f{at}", pushed.blob(length)) for at, length in enumerate([MAX_CONTENT] * 3 + [4_000_000])]
    top = tree_of(world, "source", ("40000", "deep", nested(world, chance, 60, 3000)), *blobs)
    first = commit_of(world, "source", top)
    stream = b"".join(messages(chance, first, 36, 1_000_000))
    world.output("source", "fast-import", "--quiet", given=stream)
    chain = tags(world, chance, world.name("source", "long"), 34, 1_000_000)
    world.output("source", "update-ref", "refs/tags/chain", chain)
    asked = pushed.words("a long push", "--mirror")
    words = [one.word() for one in asked]
    checks.same("several uploads", (4, "part-end"), (words.count("part-end"), words[-1]))
    world.same_mirror("a long push", "source", "r")
    sizes = world.output("source", "cat-file", "--batch-all-objects", "--batch-check=%(objectsize)").split()
    use = sum(64 + int(size) for size in sizes)
    checks.same("each object counts once", use, int(world.ask("alice", "quota").output.split()[0]))
    world.host.ends_well(checks, "after uploads")


def show_full(checks, program, folder):
    """The limit is met in a later upload: that is reported, with what stays, and a prune gives it back."""
    world = World(checks, program, folder, "alice=50000000")
    pushed = Pushed(world)
    entries = [("100644", f"f{at}", pushed.blob(8_000_000)) for at in range(8)]
    name = commit_of(world, "source", tree_of(world, "source", *entries))
    ran = world.git("source", "push", "--porcelain", pushed.url, f"{name}:refs/heads/main")
    used = int(world.ask("alice", "quota").output.split()[0])
    checks.same("some of it is in use", True, 0 < used < 50_000_000)
    told = [row.split("\t")[2] for row in ran.output.decode().splitlines() if row[:1] == "!"]
    text = f"[remote rejected] (over quota: {used} of 50000000 bytes are used, and this push brings up to "
    checks.same("over quota in a later upload", (1, True), (ran.status, told[0].startswith(text)))
    said = b"forkhost: objects of 1 of 2 uploads stay in use at the host until a prune\n"
    checks.same("what stays is said", True, said in ran.fault)
    checks.same("no reference has come", [], world.kept("r"))
    world.succeeds("a prune", world.ask("alice", "prune"))
    checks.same("gives all of it back", b"0 50000000\n", world.ask("alice", "quota").output)
    smaller = commit_of(world, "source", tree_of(world, "source", *entries[:6]))
    world.succeeds("what fits goes", world.git("source", "push", "-q", pushed.url, f"{smaller}:refs/heads/main"))
    world.host.ends_well(checks, "after a full one")


def show_failing(checks, program, folder):
    """The store fails within an upload: the push drops it, so the host need not keep what came of it."""
    world = World(checks, program, folder)
    pushed = Pushed(world)
    tree = tree_of(world, "source", *(("100644", f"f{at}", pushed.blob(700_000)) for at in range(4)))
    name = commit_of(world, "source", tree)
    place = os.path.join(world.host.folder, "objects", tree[:2])
    os.rmdir(place)
    with open(place, "xb"):
        pass
    push = lambda: world.git("source", "push", "-q", pushed.url, f"{name}:refs/heads/main")
    ran = push()
    checks.same("the store fails", (1, True), (ran.status, b"the host failed (store)" in ran.fault))
    words = [one.word() for one in pushed.watcher.taken()]
    checks.same("within an upload", True, words.count("part") > 1)
    checks.same("no upload is open", 0, int(world.ask("@host", "tenants").output.split()[6]))
    os.remove(place)
    os.mkdir(place, 0o700)
    world.succeeds("a push of the same", push())
    world.host.ends_well(checks, "after a store that failed")
