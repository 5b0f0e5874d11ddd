"""A second tenant names what the first one has, and reads what a host without the first would say."""
import os

from lib.making import commit, commit_of, hashed, line, tree_of
from lib.program import Ran
from lib.world import World

BOTH = ["alice=1000000000", "bob=1000000"]


def content_of(world, name):
    kind = world.output("source", "cat-file", "-t", name)
    return kind, world.git("source", "cat-file", kind, name).output


def without(world, at, name):
    """A commit on top of one that is not here: the repository is cut short at it. Its name."""
    world.repository(at)
    blob = hashed(world, at, "blob", b"bob's\n")
    top = commit_of(world, at, tree_of(world, at, ("100644", "file", blob)), name)
    with open(world.path(at, ".git", "shallow"), "w", encoding="utf-8") as file:
        file.write(top + "\n")
    world.output(at, "update-ref", "refs/heads/top", top)
    return top


class Bob:
    """What bob reads and has, by everything that Git lets him try; each try begins in a folder of its own."""

    def __init__(self, world, names):
        self.world, self.names, self.told = world, names, []

    def does(self, at, *words, given=b""):
        ran = self.world.ran(*words, at=at, given=given)
        self.told.append((words[:3], ran, self.world.kept("r", "bob")))
        if at and os.path.isdir(self.world.path(at, ".git")):
            self.told.append((at, self.world.references(at), self.world.objects(at)))

    def git(self, at, *words):
        self.does(at, "git", *words)

    def asks(self, *words, given=b""):
        self.does(None, "forkhost-ask", self.world.host.socket, "bob", *words, given=given)

    def begin(self):
        world = self.world
        world.seconds = 1_800_000_000
        for at in ("fetched", "named", "own", "top", "whole"):
            world.remove(at)
        self.asks("init", "r")
        line(world, world.repository("own"), "bob")
        self.git("own", "push", "--porcelain", world.url("r", "bob"), "main")
        self.top = without(world, "top", self.names["commit"])

    def tries(self):
        """Fetches by name, references to it, commits on it, and requests by hand."""
        self.begin()
        url = self.world.url("r", "bob")
        self.world.repository("fetched")
        for kind, name in self.names.items():
            self.git("fetched", "fetch", url, name)
            self.git("fetched", "fetch", url, f"{name}:refs/heads/{kind}")
            self.git("own", "fetch", "--tags", url, name)
            self.git("own", "push", "--porcelain", url, f"{name}:refs/tags/{kind}")
            self.git("own", "push", "--porcelain", "--atomic", url, f"+{name}:refs/heads/main", "main:refs/heads/x")
            self.git("own", "push", "--porcelain", f"--force-with-lease=main:{name}", url, "main")
            self.asks("cat-file", name)
            self.asks("ls-tree", name)
            self.asks("rev-list", "r", name)
            self.asks("fetch", "r", name)
            self.asks("fetch", "r", "refs/heads/main", "^" + name)
            self.asks("merge-base", "r", "refs/heads/main", name)
            self.asks("update-refs", "r", "-", given=f"create refs/tags/stolen {name}\n".encode())
            self.asks("push", "r", "-", given=f"create refs/tags/stolen {name}\n\n".encode())
        self.git("top", "push", "--porcelain", url, "top")
        self.git("top", "push", "--porcelain", url, "top", f"{self.names['blob']}:refs/tags/b")
        self.does(None, "git", "clone", self.world.url("r", "alice2"), "nothing")
        self.does(None, "git", "clone", self.world.url("secret", "bob"), "nothing")
        self.does(None, "git", "ls-remote", self.world.url("secret", "bob"))
        self.asks("quota")
        self.asks("prune")
        self.asks("quota")
        self.does(None, "git", "clone", url, "whole")
        return self.told


def alice(world):
    """What alice has: a history with a tag, and an upload that is open. The names of hers."""
    world.init("alice", "secret")
    world.repository("source")
    line(world, "source", "one", "two")
    commit(world, "source", "secret", "main", files={"secret": "nobody knows\n"})
    world.output("source", "tag", "-a", "-m", "x", "v1", "main")
    world.succeeds("alice pushes", world.git("source", "push", "-q", "--mirror", world.url("secret")))
    world.succeeds("alice leaves an upload open", world.ask("alice", "part", given=b"\n"))
    revisions = {"commit": "main", "parent": "main~1", "tree": "main^{tree}", "blob": "main:secret", "tag": "v1"}
    return {kind: world.name("source", revision) for kind, revision in revisions.items()}


def show_tenants(checks, program, folder):
    """Bob by Git and by hand, with alice beside him and without her, at one address: the same to the byte."""
    world = World(checks, program, folder, *BOTH)
    names = alice(world)
    beside = Bob(world, names).tries()
    world.host.ends_well(checks, "with alice")
    world.remove("host")
    world.host.begin(BOTH[1])
    alone = Bob(world, names).tries()
    checks.same("as many things are told", len(alone), len(beside))
    for number, (wanted, told) in enumerate(zip(alone, beside)):
        checks.same(f"bob, {number}: {wanted[0]}", wanted, told)
    show_refused(checks, names["commit"], [one[1] for one in alone if isinstance(one[1], Ran)])
    world.host.ends_well(checks, "without alice")


def show_refused(checks, name, told):
    """What bob was told is that there is nothing, each in the host's own answer."""
    said = b"".join(ran.fault + ran.output for ran in told).decode()
    lacking = "missing necessary objects: neither this repository nor the host has object "
    for text in (
        f"fatal: forkhost: tenant 'bob' sees no object {name}\n",
        f"{name}:refs/tags/commit\t[remote rejected] ({lacking}{name})\n",
        f"top:refs/heads/top\t[remote rejected] ({lacking}{name})\n",
        f"forkhost-ask: missing {name}\n",
        "fatal: forkhost: repository 'secret' of tenant 'bob' not found",
    ):
        checks.same(f"bob is told: {text}", True, text in said)
    checks.same("nearly all of it is refused", True, sum(ran.status != 0 for ran in told) > 60)


def show_own(checks, program, folder):
    """Two tenants with one history: each pays for it, and neither is touched by what the other does."""
    world = World(checks, program, folder, "alice=100000", "bob=100000")
    world.init("alice", "r")
    world.init("bob", "r")
    line(world, world.repository("source"), "one", "two")
    for tenant in ("alice", "bob"):
        world.succeeds(f"{tenant} pushes", world.git("source", "push", "-q", world.url("r", tenant), "main"))
    used = [world.ask(tenant, "quota").output for tenant in ("alice", "bob")]
    checks.same("each pays", (True, used[0]), (int(used[0].split()[0]) > 0, used[1]))
    world.succeeds("alice's branch goes", world.git("source", "push", "-q", world.url("r"), ":main"))
    world.succeeds("she prunes", world.ask("alice", "prune"))
    checks.same("she has nothing", b"0 100000\n", world.ask("alice", "quota").output)
    world.same_mirror("bob has all", "source", "r", tenant="bob")
    tip = world.name("source", "main")
    ran = world.git(world.repository("empty"), "fetch", world.url("r"), tip)
    told = f"fatal: forkhost: tenant 'alice' sees no object {tip}\n".encode()
    checks.same("alice can not fetch what she had", (128, b"", told), ran)
    show_fork(world)
    world.host.ends_well(checks, "after two tenants")


def show_fork(world):
    """A fork of bob's: the same references at once, and then a way of its own."""
    checks = world.checks
    world.succeeds("a fork", world.ask("bob", "fork", "r", "s"))
    world.same_mirror("the fork", "source", "s", tenant="bob")
    copy = world.cloned("a clone of it", "s", tenant="bob")
    line(world, copy, "three", parent=world.name(copy, "main"))
    world.succeeds("it goes on", world.git(copy, "push", "-q", "origin", "main"))
    checks.same("the fork has moved", [f"{world.name(copy, 'main')} refs/heads/main"], world.kept("s", "bob"))
    checks.same("what it is of has not", world.references("source"), world.kept("r", "bob"))
