"""What is refused, by the host and by Git's own check at the door: in which words, and that nothing comes of it."""
import hashlib
import os
import random
import zlib

from client.killed import great
from lib.making import commit, commit_of, hashed, line, tree_of
from lib.world import finished


def pushed(world, tenant, *words):
    """The status of a push, and what is reported of each reference that is refused."""
    ran = world.git("source", "push", "--porcelain", world.url("r", tenant), *words)
    rows = [row.split("\t") for row in ran.output.decode().splitlines()]
    return ran, {row[1].partition(":")[2]: row[2] for row in rows if row[0] == "!"}


def refused(world, label, wanted, *words, tenant="alice"):
    """Three checks: status, what is reported of each reference, that the host is as before, and the cache too."""
    before = world.kept("r", tenant)
    world.git(None, "ls-remote", world.url("r", tenant))
    cached = world.in_cache("r", tenant)
    ran, told = pushed(world, tenant, *words)
    world.checks.same(f"{label}: what is told", (1, wanted), (ran.status, told or ran))
    world.checks.same(f"{label}: the host's references", before, world.kept("r", tenant))
    world.checks.same(f"{label}: the cache's objects", cached, world.in_cache("r", tenant))
    return ran


def show_refusals(world):
    checks = world.checks
    world.init("alice", "r")
    world.init("carol", "r")
    first, second = line(world, world.repository("source"), "one", "two")
    for tenant in ("alice", "carol"):
        ran = world.git("source", "push", "-q", world.url("r", tenant), f"{first}:refs/heads/main")
        world.succeeds(f"{tenant} pushes", ran)
    world.output("source", "tag", "-a", "-m", "x", "annotated", "main")
    text = "[remote rejected] (a branch must point at a commit)"
    refused(world, "a branch at a tag", {"refs/heads/t": text}, "annotated:refs/heads/t")
    blob = hashed(world, "source", "blob", random.Random(1).randbytes(9 << 20))
    large = commit_of(world, "source", tree_of(world, "source", ("100644", "large", blob)), first)
    text = "[remote rejected] ('large' has 9437184 bytes, and the host accepts at most 8388608)"
    refused(world, "an object of 9 MiB", {"refs/heads/large": text}, f"{large}:refs/heads/large")
    show_deep(world, first, blob)
    show_quota(world, first)
    show_fsck(world, first)
    show_mixed(world, first, second)
    world.cloned("a clone at last", "r")
    world.host.ends_well(checks, "after refusals")


def show_deep(world, first, blob):
    """A reason is cut where it names a path that is longer than a packet of Git's."""
    folder, tree = "d" * 4000, tree_of(world, "source", ("100644", "large", blob))
    for _ in range(18):
        tree = tree_of(world, "source", ("40000", folder, tree))
    deep = commit_of(world, "source", tree, first)
    reason = f"'{'/'.join([folder] * 18)}/large' has"[:1000]
    refused(world, "an object of 9 MiB, deep", {"refs/heads/deep": f"[remote rejected] ({reason})"}, f"{deep}:refs/heads/deep")


def show_quota(world, first):
    """Over quota: what is used, the limit, and what the push brings."""
    used = int(world.ask("carol", "quota").output.split()[0])
    much = commit(world, "source", "much", first, branch="much", files={"much": "x" * 30_000})
    rows = world.output("source", "rev-list", "--objects", "--no-object-names", much, f"^{first}").split()
    brings = sum(int(world.output("source", "cat-file", "-s", row)) + 64 for row in rows)
    text = f"[remote rejected] (over quota: {used} of 20000 bytes are used, and this push brings up to {brings})"
    refused(world, "over quota", {"refs/heads/much": text}, "much", tenant="carol")
    world.checks.same("nothing is used by it", f"{used} 20000\n".encode(), world.ask("carol", "quota").output)


def show_fsck(world, first):
    """The host takes these, and Git's own check does not."""
    blob = hashed(world, "source", "blob", b"content\n")
    modules = hashed(world, "source", "blob", b'[submodule "a"]\n\tpath = a\n\turl = --upload-pack=touch\n')
    inner = tree_of(world, "source", ("100644", "x", blob))
    wrong = {
        "a .gitmodules that runs a command": ("100644", ".gitmodules", modules, b"gitmodulesUrl"),
        "a .GIT": ("40000", ".GIT", inner, b"hasDotgit"),
        "a look-alike": ("40000", ".g\u200cit", inner, b"hasDotgit"),
    }
    for label, (mode, name, target, word) in wrong.items():
        tip = commit_of(world, "source", tree_of(world, "source", (mode, name, target)), first)
        text = "[remote rejected] (unpacker error)"
        ran = refused(world, label, {"refs/heads/wrong": text}, f"{tip}:refs/heads/wrong")
        world.checks.same(f"{label}: why", True, word in ran.fault)
        rows = [row[3] for row in world.logged() if row[1] == "git-receive-pack"]
        world.checks.same(f"{label}: the log's last word", "refused", rows[-1])
        url = world.host.url("carol", "r")
        ran = world.git("source", "push", "-q", url, f"+{tip}:refs/heads/wrong")
        world.succeeds(f"{label}: the host takes it", ran)
        show_served(world, label, tip)


def show_served(world, label, tip):
    """What the host has is served, and the cache is in doubt after a fault, and found to be right."""
    world.logged()
    ran = world.git(world.repository("fetched"), "fetch", "-q", world.url("r", "carol"), "wrong")
    world.succeeds(f"{label}: who fetches it", ran)
    world.checks.same(f"{label}: has it", tip, world.name("fetched", "FETCH_HEAD"))
    ran = world.git("fetched", "fetch", "-q", world.url("r", "carol"), "ab" * 32)
    world.checks.same(f"{label}: what is not there", 128, ran.status)
    world.succeeds(f"{label}: the next", world.git(None, "ls-remote", world.url("r", "carol")))
    world.checks.same(f"{label}: nothing is made anew", [], [row for row in world.logged() if row[1] == "cache"])


def varint(number):
    """As a delta begins (gitformat-pack(5))."""
    return bytes([number & 127 | 128]) + varint(number >> 7) if number > 127 else bytes([number])


def headed(kind, length):
    """The header of an object in a pack."""
    first, rest = kind << 4 | length & 15, length >> 4
    return bytes([first | 128]) + varint(rest) if rest else bytes([first])


def unfolding(piece, times):
    """A pack of zeros, and of a delta that repeats them."""
    zeros, copy = bytes(piece), b"\xf0" + piece.to_bytes(3, "little")
    delta = varint(piece) + varint(piece * times) + copy * times
    pack = b"PACK" + (2).to_bytes(4, "big") * 2 + headed(3, piece) + zlib.compress(zeros)
    pack += headed(7, len(delta)) + hashlib.sha256(b"blob %d\0" % piece + zeros).digest() + zlib.compress(delta)
    return pack + hashlib.sha256(pack).digest()


def show_unfolding(world):
    """A push of some thousand bytes that unpacks to 384 MiB: Git refuses it before it has the memory."""
    world.init("alice", "r")
    command = f"{'0' * 64} {'ab' * 32} refs/tags/t\0report-status object-format=sha256".encode()
    given = b"%04x%s0000" % (len(command) + 4, command) + unfolding(8 << 20, 48)
    more = {"SSH_ORIGINAL_COMMAND": "git-receive-pack r"}
    ran = world.ran(world.shell(), "--settings", world.path("front"), "alice", given=given, more=more)
    wanted = (True, True, True)
    told = (len(given) < 20_000, b"over limit 268435456" in ran.fault, b"ng refs/tags/t unpacker error" in ran.output)
    world.checks.same("a small push of a large object", wanted, told)
    world.checks.same("is not there", [], world.kept("r"))


def show_mixed(world, first, second):
    """Of several references one is refused: all of them where all or none was asked for, else that one alone."""
    words = [f"{second}:refs/tags/t", f"{first}:refs/heads/main/x"]
    text = "[remote rejected] (refs/heads/main and a name below it cannot both exist)"
    wanted = {"refs/tags/t": "[remote rejected] (atomic push failed)", "refs/heads/main/x": text}
    refused(world, "all or none", wanted, "--atomic", *words)
    ran, told = pushed(world, "alice", *words)
    world.checks.same("not all or none", (1, {"refs/heads/main/x": text}), (ran.status, told))
    world.checks.same("the other one is there", [f"{first} refs/heads/main", f"{second} refs/tags/t"], world.kept("r"))
    orphan = commit_of(world, "source", world.name("source", "main^{tree}"))
    third = commit(world, "source", "third", second, branch="third")
    words = [f"{orphan}:refs/heads/main/x", f"{third}:refs/heads/third"]
    ran, told = pushed(world, "alice", *words)
    world.checks.same("one with objects of its own", (1, {"refs/heads/main/x": text}), (ran.status, told))
    world.checks.same("the cache has what the host took", world.reached(world.cache()), world.in_cache())
    world.checks.same("and not the other's objects", False, orphan in world.in_cache())


def show_counts(world):
    """More references than one transaction changes, with and without all or none."""
    checks = world.checks
    world.init("alice", "r")
    (tip,) = line(world, world.repository("source"), "one")
    rows = [f"main:refs/heads/b{at:04}" for at in range(1500)]
    ran, told = pushed(world, "alice", "--atomic", *rows)
    text = {"[remote rejected] (the host changes at most 256 references at once)"}
    checks.same("all or none", (1, 1500, text, []), (ran.status, len(told), set(told.values()), world.kept("r")))
    checks.same("all or none: the log", ["refused"], pushes_logged(world))
    ran, told = pushed(world, "alice", "main:refs/heads/" + "n" * 245)
    checks.same("a name too long", {"[remote rejected] (the host accepts reference names of at most 255 bytes)"}, set(told.values()))
    checks.same("a name too long: the log", ["refused"], pushes_logged(world))
    ran, told = pushed(world, "alice", *rows)
    checks.same("else in several", (0, {}, 1500), (ran.status, told, len(world.kept("r"))))
    copy = world.cloned("a clone of many", "r", "--mirror")
    checks.same("has all", world.kept("r"), world.references(copy))
    ran, told = pushed(world, "alice", "--mirror")
    checks.same("all but one go", (0, [f"{tip} refs/heads/main"]), (ran.status, world.kept("r")))
    world.host.ends_well(checks, "after counts")


def pushes_logged(world):
    """The replies' words of the pushes since the last look; a push over HTTP is a request with what comes."""
    return [row[3] for row in world.logged() if row[1] == "git-receive-pack"]


def show_failing(world):
    """The host's store fails at a push: the log has the word of the fault."""
    world.init("alice", "r")
    (tip,) = line(world, world.repository("source"), "one")
    place = os.path.join(world.host.folder, "objects", tip[:2])
    os.rmdir(place)
    with open(place, "xb"):
        pass
    world.logged()
    ran, told = pushed(world, "alice", "main:refs/heads/main")
    text = "[remote rejected] (the host failed (store) and this request changed nothing; it may be sent again)"
    world.checks.same("the store fails", (1, {"refs/heads/main": text}), (ran.status, told))
    world.checks.same("the store fails: the log", ["host-store"], pushes_logged(world))
    os.remove(place)
    os.mkdir(place, 0o700)
    ran, told = pushed(world, "alice", "main:refs/heads/main")
    world.checks.same("the store no longer fails", (0, {}, ["ok"]), (ran.status, told, pushes_logged(world)))
    world.host.ends_well(world.checks, "after a store that failed")


def show_uploads(world):
    """Pushes of one tenant to several repositories at once, each in several parts: one waits for the other."""
    names = ["a", "b", "c"]
    world.init("alice", *names)
    world.repository("source")
    for at, name in enumerate(names):
        great(world, name, random.Random(at), count=3)
    begun = [world.begun("git", "push", "-q", world.url(name), name, at="source") for name in names]
    told = [finished(child) for child in begun]
    world.checks.same("all are done", [(0, b"", b"")] * 3, told)
    for name in names:
        rows = [f"{world.name('source', name)} refs/heads/{name}"]
        world.checks.same(f"{name} is there", rows, world.kept(name))
    world.set(100_000)
    wanted = (1, {"refs/heads/large": "[remote rejected] (unpacker error)"})
    world.ask("alice", "init", "r")
    ran, told = pushed(world, "alice", "a:refs/heads/large")
    world.checks.same("more than a push may bring", wanted, (ran.status, told))
    world.checks.same("is not there", [], world.kept("r"))
    world.host.ends_well(world.checks, "after uploads")


def show_pushers(world):
    """Two push to one branch at once: one of them gets it, and the other one gets it when it has fetched."""
    checks = world.checks
    world.init("alice", "r")
    (tip,) = line(world, world.repository("source"), "one")
    world.succeeds("a first push", world.git("source", "push", "-q", world.url("r"), "main"))
    for who in ("left", "right"):
        world.cloned(f"a clone of {who}", "r", name=who)
    for number in range(4):
        tips = {who: commit(world, who, f"{who} {number}", tip) for who in ("left", "right")}
        children = {who: world.begun("git", "push", "-q", "origin", "main", at=who) for who in tips}
        told = {who: child.communicate(timeout=60) and child.returncode for who, child in children.items()}
        winner = [who for who in told if told[who] == 0]
        checks.same(f"{number}: one gets it", (1, {0, 1}), (len(winner), set(told.values())))
        if len(winner) != 1:
            return
        loser = "left" if winner == ["right"] else "right"
        checks.same(f"{number}: the host has it", [f"{tips[winner[0]]} refs/heads/main"], world.kept("r"))
        world.succeeds(f"{number}: the other one fetches", world.git(loser, "fetch", "-q"))
        tip = commit(world, loser, f"both {number}", tips[loser], tips[winner[0]])
        world.succeeds(f"{number}: and pushes", world.git(loser, "push", "-q", "origin", "main"))
        checks.same(f"{number}: the host has both", [f"{tip} refs/heads/main"], world.kept("r"))
        world.succeeds(f"{number}: the first one fetches", world.git(winner[0], "fetch", "-q"))
    world.cloned("after two pushers", "r")
    world.host.ends_well(checks, "after two pushers")
