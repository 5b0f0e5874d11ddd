"""HEAD of a repository of the host, beside that of a bare repository in a folder, as Git shows it."""
from client.by_hand import refused
from lib.making import commit, line
from lib.program import done
from lib.world import World

# The second version of Git's protocol tells a clone of a HEAD whose branch does not exist; a helper cannot.
FIRST = ["-c", "protocol.version=0"]
SHOWN = (
    *(["symbolic-ref", "HEAD"], ["rev-parse", "-q", "--verify", "HEAD"], ["symbolic-ref", "refs/remotes/origin/HEAD"]),
    *(["config", "--get-regexp", "branch[.].*"], ["for-each-ref"], ["status", "--porcelain"], ["ls-files"]),
    ["fsck", "--strict", "--full", "--no-dangling", "--no-progress"],
)
ASKS = (["ls-remote", "--symref"], ["ls-remote", "--symref", "--heads"], ["ls-remote"])


class Heads:
    """A bare repository and one of the host, which have the same references and the same HEAD."""

    def __init__(self, world):
        self.world, self.checks = world, world.checks
        world.init("alice", "r")
        world.output(None, "init", "-q", "--bare", "--object-format=sha256", "bare")
        world.output("bare", "config", "receive.denyDeleteCurrent", "ignore")
        self.urls = {"bare": "file://" + world.path("bare"), "host": world.url("r")}

    def push(self, label, *words):
        for name, url in self.urls.items():
            self.world.succeeds(f"{label}: {name}", self.world.git("source", "push", "-q", url, *words))

    def set_head(self, ref):
        self.world.output("bare", "symbolic-ref", "HEAD", ref)
        ran = self.world.ran("forkhost-ask", self.world.host.socket, "alice", "set-head", "r", ref)
        self.checks.same(f"HEAD is {ref}", done(), ran)

    def told(self, label, *words):
        """What Git says of both is the same."""
        found = [self.world.git(None, *FIRST, *words, url) for url in self.urls.values()]
        self.checks.same(f"{label}: {' '.join(words)}", *found)

    def clone(self, label, *words):
        """A clone of both: what is said, and what it is then."""
        found = []
        for name, url in self.urls.items():
            self.world.remove(f"of-{name}")
            ran = self.world.git(None, *FIRST, "clone", "-q", *words, url, f"of-{name}")
            found.append((ran, *self.shown(f"of-{name}")) if ran.status == 0 else ran[:2])
        self.checks.same(f"{label}: clone {' '.join(words)}", *found)

    def shown(self, at):
        """The branch, its commit, the remote's HEAD, what is followed, the work tree, and that all is right."""
        return [self.world.git(at, *words) for words in SHOWN]

    def alike(self, label):
        for words in ASKS:
            self.told(label, *words)
        for words in ([], ["-b", "x"], ["--single-branch"], ["--bare"], ["-n"]):
            self.clone(label, *words)


def show_heads(checks, program, folder):
    """What is checked out is what HEAD names, whichever branches are there and however they are called."""
    world = World(checks, program, folder)
    tips = line(world, world.repository("source"), "one", "two", branch="main")
    line(world, "source", "x", branch="x", parent=tips[0])
    heads = Heads(world)
    heads.push("branches", "main", "x", f"{tips[0]}:refs/heads/a", f"{tips[0]}:refs/heads/master")
    for branch in ("main", "x", "a", "none", "x/y", "master"):
        heads.set_head(f"refs/heads/{branch}")
        heads.alike(branch)
    heads.set_head("refs/heads/x")
    show_set_head(heads, "x")
    for ref in ("refs/tags/v", "HEAD", "main", "refs/heads/a..b"):
        ran = world.ran("forkhost-ask", world.host.socket, "alice", "set-head", "r", ref)
        checks.same(f"{ref} is no HEAD", refused(f"bad-ref {ref}"), ran)
    told = done(f"refs/heads/x {world.name('source', 'x')}\n".encode())
    checks.same("HEAD is as before", told, world.ask("alice", "head", "r"))
    world.host.ends_well(checks, "after heads")
    world.host.begin()
    heads.alike("after a start")
    world.host.ends_well(checks, "after heads again")


def show_set_head(heads, branch):
    """A clone asks for the remote's HEAD once more."""
    for ref, told in ((branch, (0, f"origin/HEAD set to {branch}\n".encode(), b"")), ("main", None), ("none", None)):
        heads.set_head(f"refs/heads/{ref}")
        found = []
        for name in heads.urls:
            ran = heads.world.git(f"of-{name}", *FIRST, "remote", "set-head", "origin", "-a")
            shown = heads.world.git(f"of-{name}", "remote", "show", "origin").output.decode()
            found.append((ran, shown.replace(heads.urls[name], "URL"), *heads.shown(f"of-{name}")))
        heads.checks.same(f"set-head -a where HEAD is {ref}", *found)
        if told:
            heads.checks.same("it is told", told, found[1][0])
    heads.set_head(f"refs/heads/{branch}")


def show_unborn(checks, program, folder):
    """If HEAD's branch does not exist nothing is checked out; as soon as it does, it is."""
    world = World(checks, program, folder)
    (tip,) = line(world, world.repository("source"), "one", branch="topic")
    heads = Heads(world)
    for branch in ("refs/tags/t", "refs/heads/z", "refs/heads/master", "refs/heads/main"):
        heads.push(branch, f"{tip}:{branch}")
        heads.alike(branch)
    heads.push("main goes", ":refs/heads/main")
    heads.alike("main is gone")
    world.host.ends_well(checks, "after unborn ones")


def show_renamed(checks, program, folder):
    """The default branch is renamed as a user does it; who clones then is on the new one, and others go on."""
    world = World(checks, program, folder)
    world.init("alice", "r")
    (first,) = line(world, world.repository("source"), "one")
    world.output("source", "remote", "add", "origin", world.url("r"))
    world.succeeds("main is pushed", world.git("source", "push", "-q", "-u", "origin", "main"))
    old = world.cloned("before", "r", name="old")
    ask = lambda *words: world.ran("forkhost-ask", world.host.socket, "alice", *words)
    checks.same("HEAD before", done(f"refs/heads/main {first}\n".encode()), ask("head", "r"))
    world.output("source", "branch", "-m", "main", "trunk")
    world.succeeds("trunk is pushed", world.git("source", "push", "-q", "-u", "origin", "trunk"))
    checks.same("a clone meanwhile", "main", branch_of(world, world.cloned("meanwhile", "r")))
    checks.same("HEAD is set", done(), ask("set-head", "r", "refs/heads/trunk"))
    world.succeeds("main is deleted", world.git("source", "push", "-q", "origin", "--delete", "main"))
    checks.same("HEAD after it", done(f"refs/heads/trunk {first}\n".encode()), ask("head", "r"))
    copy = world.cloned("after it", "r")
    checks.same("a fresh clone", "trunk", branch_of(world, copy))
    checks.same("it has one branch", [f"{first} refs/heads/trunk"], world.kept("r"))
    second = commit(world, copy, "two", first, branch="trunk")
    world.succeeds("it pushes", world.git(copy, "push", "-q", "origin", "trunk"))
    world.succeeds("who cloned before fetches", world.git(old, "fetch", "-q", "--prune"))
    ran = world.git(old, "remote", "set-head", "origin", "-a")
    checks.same("and takes the new HEAD", done(b"origin/HEAD set to trunk\n"), ran)
    checks.same("which is there", second, world.name(old, "origin/HEAD"))
    checks.same("a fork has it too", done(), ask("fork", "r", "s"))
    checks.same("a clone of the fork", "trunk", branch_of(world, world.cloned("the fork", "s")))
    world.host.ends_well(checks, "after a rename")


def branch_of(world, at):
    return world.output(at, "symbolic-ref", "--short", "HEAD")
