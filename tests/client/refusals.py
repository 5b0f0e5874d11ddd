"""What the user reads if the host refuses: the words, the status, and that nothing has changed."""
from lib.making import commit, commit_of, hashed, line, tree_of
from lib.watching import Watcher
from lib.world import World

WRONG_IDENT = "Ada 1700000000 +0000"


class Refusals:
    """A source, a repository of the host with one branch, and pushes that are refused."""

    def __init__(self, world, *tenants):
        self.world, self.checks = world, world.checks
        world.init("alice", "r")
        world.repository("source")
        self.tip = commit(world, "source", "first")
        world.succeeds("a first push", world.git("source", "push", "-q", world.url("r"), "main"))
        self.blob = hashed(world, "source", "blob", b"a blob\n")

    def refused(self, label, text, *words, status=1):
        """One check each: status, the row of each reference, and what the host has."""
        before = self.world.kept("r")
        ran = self.world.git("source", "push", "--porcelain", self.world.url("r"), *words)
        rows = [row.split("\t") for row in ran.output.decode("utf-8", "surrogateescape").splitlines()]
        told = {row[2] for row in rows if row[0] == "!"}
        wanted = {f"[remote rejected] ({text})"}
        self.checks.same(f"{label}: what is told", (status, wanted), (ran.status, told))
        self.checks.same(f"{label}: the host's references", before, self.world.kept("r"))

    def branch(self, tree, **how):
        """A commit of this tree under a branch's name."""
        name = commit_of(self.world, "source", tree, self.tip, **how)
        self.world.output("source", "update-ref", "refs/heads/wrong", name)
        return name


def show_refusals(checks, program, folder):
    world = World(checks, program, folder)
    here = Refusals(world)
    show_objects(world, here)
    show_references(world, here)
    show_nobody(world)
    world.host.ends_well(checks, "after refusals")


def show_objects(world, here):
    """Objects that are not in the grammars of the host, each with its path."""
    wrong = "wrong:refs/heads/wrong"
    inner = tree_of(world, "source", ("100664", "file", here.blob))
    here.branch(tree_of(world, "source", ("40000", "dir", inner)))
    here.refused("a mode", "the host does not accept mode 100664 of 'dir/file'", wrong)
    here.branch(tree_of(world, "source", ("100664", "new\nline", here.blob)))
    here.refused("a mode at an odd name", "the host does not accept mode 100664 of 'new\\nline'", wrong)
    inner = tree_of(world, "source", ("100644", ".git", here.blob))
    here.branch(tree_of(world, "source", ("40000", "a", tree_of(world, "source", ("40000", "b", inner)))))
    here.refused("a file name", "the host does not accept the file name of 'a/b/.git'", wrong)
    tree = tree_of(world, "source", ("100644", "b", here.blob), ("100644", "a", here.blob))
    here.branch(tree)
    here.refused("an order", f"the host does not accept the order of tree {tree} at '.'", wrong)
    tree = world.name("source", "main^{tree}")
    name = here.branch(tree, author=WRONG_IDENT)
    text = f"commit {name}: the host does not accept its line 'author {WRONG_IDENT}'"
    here.refused("an ident", text, wrong)
    raw = f"object {here.tip}\ntype commit\ntag x\ntagger Ada <a@x> 01 +0000\n\nx\n"
    tag = hashed(world, "source", "tag", raw.encode(), "--literally")
    text = f"tag {tag}: the host does not accept its line 'tagger Ada <a@x> 01 +0000'"
    here.refused("a tagger", text, f"{tag}:refs/tags/x")
    here.refused("one that is wrong refuses what comes with it", text, f"{tag}:refs/tags/x", "main:refs/heads/beside")
    large = hashed(world, "source", "blob", b"x" * 8_388_609)
    here.branch(tree_of(world, "source", ("40000", "dir", tree_of(world, "source", ("100644", "large", large)))))
    here.refused("a size", "'dir/large' has 8388609 bytes, and the host accepts at most 8388608", wrong)
    show_large(world, here, large)
    most = hashed(world, "source", "blob", b"x" * 8_388_608)
    here.branch(tree_of(world, "source", ("100644", "most", most)))
    world.succeeds("the greatest object", world.git("source", "push", "-q", world.url("r"), wrong))
    world.succeeds("it goes", world.git("source", "push", "-q", world.url("r"), ":refs/heads/wrong"))


def show_large(world, here, large):
    """All files that are too large are named at once, and what to do."""
    second = hashed(world, "source", "blob", b"y" * 9_000_000)
    here.branch(tree_of(world, "source", ("100644", "first", large), ("100644", "second", second)))
    ran = world.git("source", "push", "--porcelain", world.url("r"), "wrong:refs/heads/wrong")
    rows = sorted(row for row in ran.fault.decode().splitlines() if row.startswith("forkhost: "))
    wanted = ["forkhost: 'first' has 8388609 bytes, which is too large"]
    wanted += ["forkhost: 'second' has 9000000 bytes, which is too large"]
    world.checks.same("two sizes: both are named", wanted, rows[:2])
    told = rows[2] if rows[2:] else ""
    world.checks.same("two sizes: what to do", (3, True), (len(rows), "git rm --cached FILE" in told))
    world.checks.same("two sizes: what Git shows", True, b"(and 1 more), and the host accepts at most 8388608" in ran.output)


def show_references(world, here):
    """References that cannot be as they are asked for."""
    here.refused("a branch at a tree", "a branch must point at a commit", "main^{tree}:refs/heads/t")
    world.output("source", "tag", "-a", "-m", "x", "annotated", "main")
    here.refused("a branch at a tag", "a branch must point at a commit", "annotated:refs/heads/t")
    text = "refs/heads/main and a name below it cannot both exist"
    here.refused("a name below another", text, "main:refs/heads/main/x")
    long = "refs/heads/" + "x" * 245
    here.refused("a long name", "the host accepts reference names of at most 255 bytes", f"main:{long}")
    world.succeeds("the longest", world.git("source", "push", "-q", world.url("r"), f"main:{long[:-1]}"))
    absent = "ab" * 32
    lacking = f"missing necessary objects: neither this repository nor the host has object {absent}"
    here.refused("what nobody has", lacking, f"{absent}:refs/x/y")
    both = ["main:refs/heads/main/x", "main:refs/heads/y"]
    ran = world.git("source", "push", "--porcelain", "--atomic", world.url("r"), *both)
    rows = sorted(row.split("\t")[2] for row in ran.output.decode().splitlines() if row[:1] == "!")
    checks = world.checks
    wanted = ["[remote rejected] (atomic push failed)", f"[remote rejected] ({text})"]
    checks.same("all or none: both", (1, wanted), (ran.status, rows))
    before = world.kept("r")
    ran = world.git("source", "push", "--porcelain", world.url("r"), *both)
    checks.same("without it the other one goes", (1, 1), (ran.status, len(world.kept("r")) - len(before)))
    world.output("source", "push", "-q", world.url("r"), "main:refs/heads/d")
    ran = world.git("source", "push", "-q", world.url("r"), ":refs/heads/d", "main:refs/heads/d/e")
    world.succeeds("a name makes room for one below it", ran)


def show_nobody(world):
    """Who and what is not there."""
    socket, none = world.host.socket, "No such file or directory"
    hint = f"; 'forkhost-ask {socket} alice init none' makes it"
    told = {
        world.url("none"): f"fatal: forkhost: repository 'none' of tenant 'alice' not found{hint}\n",
        world.url("r", "carol"): "fatal: forkhost: the host has no tenant 'carol'\n",
        f"forkhost::{socket}x/alice/r": f"fatal: forkhost: cannot reach a host at '{socket}x': {none}\n",
    }
    for url, text in told.items():
        for words in (["ls-remote", url], ["fetch", "-q", url], ["push", "-q", url, "main"]):
            ran = world.git("source", *words)
            world.checks.same(f"{words[0]} {url}", (128, b"", text.encode()), ran)
        world.remove("none")
        ran = world.git(None, "clone", "-q", url, "none")
        world.checks.same(f"clone {url}", (128, b"", text.encode()), ran)


def show_quota(checks, program, folder):
    """Over quota: what is used, the limit, and what the push brings."""
    world = World(checks, program, folder, "alice=3000")
    world.init("alice", "r")
    line(world, world.repository("source"), "one")
    world.succeeds("what fits", world.git("source", "push", "-q", world.url("r"), "main"))
    used = int(world.ask("alice", "quota").output.split()[0])
    commit(world, "source", "two", "main", files={"much": "x" * 2500})
    rows = [row.split() for row in world.output("source", "rev-list", "--objects", "main", "^main~1").splitlines()]
    brings = sum(int(world.output("source", "cat-file", "-s", row[0])) + 64 for row in rows)
    ran = world.git("source", "push", "--porcelain", world.url("r"), "main", "main~1:refs/heads/old")
    text = f"[remote rejected] (over quota: {used} of 3000 bytes are used, and this push brings up to {brings})"
    told = [row.split("\t")[2] for row in ran.output.decode().splitlines() if row[:1] == "!"]
    checks.same("over quota", (1, [text, text]), (ran.status, told))
    checks.same("nothing is used by it", f"{used} 3000\n".encode(), world.ask("alice", "quota").output)
    old = world.name("source", "main~1")
    checks.same("and nothing has changed", [f"{old} refs/heads/main"], world.kept("r"))
    world.succeeds("what fits still goes", world.git("source", "push", "-q", world.url("r"), "main~1:refs/heads/old"))
    world.host.ends_well(checks, "after quota")


def show_counts(checks, program, folder):
    """More references than one transaction changes, and more than a repository has."""
    world = World(checks, program, folder)
    world.init("alice", "r", "s", "t")
    (tip,) = line(world, world.repository("source"), "one")
    watcher = Watcher(world.path("watched"), world.host.socket)
    url = lambda name: f"forkhost::{watcher.path}/alice/{name}"
    rows = lambda first, last: [f"main:refs/heads/b{at:04}" for at in range(first, last)]
    world.succeeds("256 references", world.git("source", "push", "-q", "--atomic", url("r"), *rows(0, 256)))
    checks.same("are one transaction", 1, watcher.words().count("push"))
    ran = world.git("source", "push", "-q", "--porcelain", "--atomic", url("s"), *rows(0, 257))
    told = {row.split("\t")[2] for row in ran.output.decode().splitlines() if row[:1] == "!"}
    text = "[remote rejected] (the host changes at most 256 references at once)"
    checks.same("257, all or none, are refused", (1, {text}, []), (ran.status, told, world.kept("s")))
    checks.same("before the host is asked", 0, watcher.words().count("push"))
    world.succeeds("257", world.git("source", "push", "-q", url("s"), *rows(0, 257)))
    checks.same("are two transactions", 2, watcher.words().count("push"))
    checks.same("and all there", [f"{tip} refs/heads/b{at:04}" for at in range(257)], world.kept("s"))
    deleted = [f":refs/heads/b{at:04}" for at in range(257)]
    world.succeeds("257 deletions", world.git("source", "push", "-q", url("s"), *deleted))
    checks.same("leave none", [], world.kept("s"))
    ran = world.git("source", "push", "-q", "--porcelain", url("t"), *rows(0, 4096))
    checks.same("as many references as a repository has", 0, ran.status)
    ran = world.git("source", "push", "-q", "--porcelain", url("t"), "main:refs/heads/more")
    text = "[remote rejected] (the repository would have too many references)"
    checks.same("one more", (1, True), (ran.status, text in ran.output.decode()))
    checks.same("is not there", 4096, len(world.kept("t")))
    world.host.ends_well(checks, "after counts")
