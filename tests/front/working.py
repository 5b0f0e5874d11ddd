"""Everyday work by a front end, beside the same work over a folder."""
import os

from client.cloning import EMPTY
from client.pushing import PUSHES, Both, sources
from lib.making import commit, everything, line

CHOSEN = ("a new branch", "forward", "up to date", "aside", "aside, forced", "back", "several", "several, one aside")
CHOSEN += ("several, one aside, all or none", "several, all or none", "a deletion", "a deletion and more")
CHOSEN += ("of all tags", "with tags", "a mirror", "a tag that is there", "a tag that is there, forced", "a blob")
CHOSEN += ("a lease that holds", "a lease that does not", "a lease on nothing", "a lease and a deletion", "dry")


def show_pushes(world):
    """Told as over a folder, and the host's references are as those there."""
    names = sources(world)
    for label in CHOSEN:
        refs, words = PUSHES[label]
        for word, name in names.items():
            words = [text.replace(word, name) for text in words]
        Both(world, label, refs).push(*words)
    world.host.ends_well(world.checks, "after pushes")


def show_all(world):
    """A repository with all that Git has comes back as it was, and its clones are those of a folder."""
    checks = world.checks
    world.init("alice", "r")
    source = everything(world, "source")
    world.succeeds("a mirror is pushed", world.git(source, "push", "-q", "--mirror", world.url("r")))
    checks.same("the host has its references", world.references(source), world.kept("r"))
    world.same_clone("all of it")
    wanted, told = (world.git(None, "ls-remote", url) for url in (world.path(source), world.url("r")))
    checks.same("ls-remote is as that of a folder", wanted.output, told.output)
    copy = world.cloned("a plain clone", "r")
    checks.same("its branch", "refs/heads/main", world.output(copy, "symbolic-ref", "HEAD"))
    checks.same("its work tree", "", world.output(copy, "status", "--porcelain"))
    show_fetches(world, source, copy)
    show_head(world)
    world.host.ends_well(checks, "after all of it")


def show_fetches(world, source, copy):
    """What comes to the host by another way is in the next fetch, and what went is pruned."""
    checks = world.checks
    odd = "refs/heads/\u0085\u2028\udcff"
    world.output(source, "push", "-q", world.host.url("alice", "r"), f"main:{odd}")
    ran = world.succeeds("an odd name is listed", world.git(None, "ls-remote", world.url("r")))
    checks.same("as it is", True, os.fsencode(f"\t{odd}\n") in ran.output)
    world.succeeds("it goes", world.git(source, "push", "-q", world.url("r"), f":{odd}"))
    tip = commit(world, source, "more", world.name(source, "main"))
    world.output(source, "tag", "-a", "-m", "x", "v2", tip)
    direct = world.host.url("alice", "r")
    world.output(source, "push", "-q", direct, "main", "v2", ":topic/side")
    world.succeeds("a fetch", world.git(copy, "fetch", "-q", "--prune"))
    checks.same("what came", tip, world.name(copy, "origin/main"))
    checks.same("its tag came too", world.name(source, "v2"), world.name(copy, "v2"))
    gone = world.git(copy, "rev-parse", "-q", "--verify", "origin/topic/side")
    checks.same("what went is pruned", 1, gone.status)
    world.sound("after a fetch", copy)
    world.succeeds("a fetch of nothing", world.git(copy, "fetch", "-q"))
    world.output(source, "push", "-q", direct, "+main~1:main")
    world.succeeds("a fetch of what went back", world.git(copy, "fetch", "-q"))
    checks.same("it is back", world.name(source, "main~1"), world.name(copy, "origin/main"))


def show_head(world):
    """A clone is on the branch that the host's HEAD names, also before it has one."""
    for branch in ("orphan", "unborn"):
        world.ask("alice", "set-head", "r", f"refs/heads/{branch}")
        world.remove("copy")
        ran = world.git(None, "clone", "-q", "--no-checkout", world.url("r"), "copy")
        world.succeeds(f"a clone where HEAD names {branch}", ran)
        world.checks.same(f"is on {branch}", f"refs/heads/{branch}", world.output("copy", "symbolic-ref", "HEAD"))


def show_empty(world):
    """A clone of what is empty, in the format that Git is set to."""
    world.init("alice", "r")
    more = {"GIT_DEFAULT_HASH": "sha256"}
    ran = world.git(None, "clone", "-q", world.url("r"), "copy", more=more)
    world.checks.same("a clone of what is empty", (0, b"", EMPTY), ran)
    tip = commit(world, "copy", "one")
    world.succeeds("a push from it", world.git("copy", "push", "-q", "origin", "main"))
    world.checks.same("is there", [f"{tip} refs/heads/main"], world.kept("r"))
    world.host.ends_well(world.checks, "after what was empty")


def show_parts(world):
    """Shallow and partial clones by Git's own means, and what is fetched later."""
    checks = world.checks
    world.init("alice", "r")
    line(world, world.repository("source"), "one", "two", "three", "four")
    commit(world, "source", "great", world.name("source", "main"), files={"great": "x" * 200_000})
    world.succeeds("the source is pushed", world.git("source", "push", "-q", "--mirror", world.url("r")))
    copy = world.cloned("a shallow clone", "r", "--depth=2")
    checks.same("it has two commits", "2", world.output(copy, "rev-list", "--count", "HEAD"))
    world.succeeds("it is deepened", world.git(copy, "fetch", "-q", "--deepen=1"))
    checks.same("by one", "3", world.output(copy, "rev-list", "--count", "HEAD"))
    tip = commit(world, copy, "from a shallow one", world.name(copy, "main"))
    world.succeeds("a push of it", world.git(copy, "push", "-q", "origin", "main"))
    checks.same("is there", [f"{tip} refs/heads/main"], world.kept("r"))
    world.succeeds("all of it", world.git(copy, "fetch", "-q", "--unshallow"))
    checks.same("is whole", "6", world.output(copy, "rev-list", "--count", "HEAD"))
    world.sound("after it is whole", copy)
    world.remove("part")
    ran = world.git(None, "clone", "-q", "--no-checkout", "--filter=blob:none", world.url("r"), "part")
    world.succeeds("a clone without blobs", ran)
    missing = world.output("part", "rev-list", "--objects", "--all", "--missing=print").splitlines()
    checks.same("it lacks the blobs", 6, sum(row.startswith("?") for row in missing))
    world.sound("a clone without blobs", "part")
    ran = world.git(None, "clone", "-q", f"--filter=sparse:oid={tip}", world.url("r"), "sparse")
    checks.same("no patterns of a user", (128, True), (ran.status, b"filter 'sparse:oid' not supported" in ran.fault))
    checks.same("one comes as it is wanted", 200_000, len(world.output("part", "show", "HEAD~1:great")))
    world.succeeds("the others come with a checkout", world.git("part", "checkout", "-q", "main"))
    checks.same("its work tree", "", world.output("part", "status", "--porcelain"))
    world.host.ends_well(checks, "after parts")
