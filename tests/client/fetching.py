"""Fetches into what is there already: what comes, and how little is asked for."""
import os

from lib.making import commit, line
from lib.watching import Watcher
from lib.world import World


class Pair:
    """A source that is pushed whole, and a clone of it through a watched socket."""

    def __init__(self, world):
        self.world = world
        world.init("alice", "r")
        world.repository("source")
        self.path = world.path("watched")
        self.watcher = Watcher(self.path, world.host.socket)

    def publish(self):
        self.world.output("source", "push", "-q", "--mirror", self.world.url("r"))

    def clone(self):
        self.publish()
        self.world.remove("copy")
        self.world.output(None, "clone", "-q", f"forkhost::{self.path}/alice/r", "copy")
        self.watcher.taken()

    def fetch(self, label, *words):
        """A fetch of what was published; the requests for objects that it made."""
        self.publish()
        self.world.succeeds(label, self.world.git("copy", "fetch", "-q", *words))
        self.world.sound(label, "copy")
        asked = self.watcher.taken()
        most = max((len(one.line.split(" ")) - 2 for one in asked if one.word() in ("fetch", "rev-list")), default=0)
        self.world.checks.same(f"{label}: at most 64 items", True, most <= 64)
        return [one for one in asked if one.word() == "fetch"]

    def arrived(self, label, *branches):
        for branch in branches:
            wanted, told = self.world.name("source", branch), self.world.name("copy", f"origin/{branch}")
            self.world.checks.same(f"{label}: {branch}", wanted, told)


def show_fetches(checks, program, folder):
    """What is new comes, and nothing else."""
    world = World(checks, program, folder)
    pair = Pair(world)
    great = {"great": "x" * 300_000}
    first = commit(world, "source", "great", files=great)
    line(world, "source", "one", "two", parent=first)
    pair.clone()
    line(world, "source", "three", parent=world.name("source", "main"))
    fetched = pair.fetch("one more commit")
    pair.arrived("one more commit", "main")
    checks.same("one request, which is told little", (1, True), (len(fetched), fetched[0].told < 2000))
    checks.same("nothing new is not asked for", [], pair.fetch("nothing new"))
    line(world, "source", "side", branch="topic", parent=first)
    checks.same("a new branch in one request", 1, len(pair.fetch("a new branch")))
    pair.arrived("a new branch", "main", "topic")
    show_tags(world, pair)
    line(world, "source", "other", branch="topic", parent=first)
    pair.fetch("a branch that went aside")
    pair.arrived("a branch that went aside", "topic")
    world.output("source", "branch", "-D", "topic")
    pair.fetch("a branch that is gone", "--prune")
    checks.same("it is pruned", 1, world.git("copy", "rev-parse", "-q", "--verify", "origin/topic").status)
    fetched = pair.fetch("all of it again", "--refetch")
    checks.same("it comes again", True, sum(one.told for one in fetched) > 300_000)
    line(world, "source", "alone", branch="root")
    pair.fetch("a history of its own root")
    pair.arrived("a history of its own root", "root")
    show_by_name(world, pair, first)
    world.host.ends_well(checks, "after fetches")


def show_tags(world, pair):
    """Tags of what comes, or is there, follow by themselves."""
    tip = world.name("source", "main")
    world.output("source", "tag", "-a", "-m", "of what is there", "there", "main~1")
    world.output("source", "tag", "light", "main~2")
    pair.fetch("tags of what is there")
    line(world, "source", "tagged", parent=tip)
    world.output("source", "tag", "-a", "-m", "of what comes", "comes", "main")
    world.output("source", "tag", "-a", "-m", "a tag of a tag", "twice", "comes")
    world.output("source", "tag", "-a", "-m", "of a tree", "tree", "main^{tree}")
    pair.fetch("tags of what comes")
    tags = world.output("copy", "tag", "-l").splitlines()
    world.checks.same("tags follow", ["comes", "light", "there", "tree", "twice"], tags)
    pair.fetch("all tags", "--tags")
    tags = [world.output(at, "show-ref", "--tags") for at in ("source", "copy")]
    world.checks.same("all tags are there", *tags)


def show_by_name(world, pair, first):
    """An object by its name, which no reference points at."""
    pair.publish()
    blob = world.name("source", f"{first}:great")
    world.remove("empty")
    world.repository("empty")
    for label, name in (("a commit", first), ("a tree", world.name("source", "main^{tree}")), ("a blob", blob)):
        world.succeeds(f"{label} by its name", world.git("empty", "fetch", "-q", world.url("r"), name))
        world.succeeds(f"{label} is there", world.git("empty", "cat-file", "-e", name))
    absent = "ab" * 32
    told = b"fatal: forkhost: tenant 'alice' sees no object %s\n" % absent.encode()
    world.checks.same("an absent one", (128, b"", told), world.git("empty", "fetch", "-q", world.url("r"), absent))


def show_aside(checks, program, folder):
    """Both sides went on: what comes is what is new to this side, by a merge and by a rebase."""
    world = World(checks, program, folder)
    pair = Pair(world)
    great = commit(world, "source", "great", files={"great": "x" * 300_000})
    pair.clone()
    line(world, "copy", "mine", parent=great)
    world.output("copy", "reset", "-q", "--hard")
    line(world, "source", "theirs", parent=great)
    fetched = pair.fetch("both went on")
    checks.same("what is common does not come", True, sum(one.told for one in fetched) < 2000)
    world.succeeds("a pull merges", world.git("copy", "pull", "-q", "--no-rebase", "--no-edit"))
    world.succeeds("and is pushed", world.git("copy", "push", "-q", "origin", "main"))
    checks.same("it is the host's", [f"{world.name('copy', 'main')} refs/heads/main"], world.kept("r"))
    world.succeeds("the source takes it", world.git("source", "pull", "-q", world.url("r"), "main"))
    line(world, "source", "later", parent=world.name("source", "main"))
    line(world, "copy", "more", parent=world.name("copy", "main"))
    world.output("copy", "reset", "-q", "--hard")
    pair.publish()
    world.succeeds("a pull rebases", world.git("copy", "pull", "-q", "--rebase"))
    checks.same("onto what came", world.name("source", "main"), world.name("copy", "main~1"))
    show_beside(world, pair)
    show_shallow(world)
    world.host.ends_well(checks, "after both went on")


def show_beside(world, pair):
    """A history here runs past the host's old tip, which no reference here names, and the host's past it."""
    world.output("copy", "push", "-q", "origin", "main")
    world.output("source", "fetch", "-q", world.url("r"), "main")
    world.output("source", "reset", "-q", "--hard", "FETCH_HEAD")
    tip = world.name("source", "main")
    commit(world, "source", "giant", tip, files={"giant": "y" * 400_000})
    pair.publish()
    world.output("copy", "pull", "-q", "--ff-only")
    line(world, "copy", "apart", parent=world.name("copy", "main"))
    for ref in ("refs/remotes/origin/main", "refs/remotes/origin/HEAD"):
        world.output("copy", "update-ref", "-d", "--no-deref", ref)
    line(world, "source", "onward", parent=world.name("source", "main"))
    pair.watcher.taken()
    fetched = pair.fetch("the host's tips are no tips here")
    told = sum(one.told for one in fetched)
    world.checks.same("what is here does not come again", True, 0 < told < 3000)
    pair.arrived("the host's tips are no tips here", "main")


def show_shallow(world):
    """A repository that was cut short elsewhere is made whole by a fetch."""
    world.remove("short")
    world.output(None, "clone", "-q", "--depth=1", f"file://{world.path('source')}", "short")
    world.checks.same("it is cut short", "true", world.output("short", "rev-parse", "--is-shallow-repository"))
    line(world, "source", "longer", parent=world.name("source", "main"))
    world.output("source", "push", "-q", "--mirror", world.url("r"))
    world.succeeds("a fetch into it", world.git("short", "fetch", "-q", world.url("r"), "main:new"))
    os.remove(world.path("short", ".git", "shallow"))
    world.sound("what was cut short", "short")


def show_many(checks, program, folder):
    """More references than a request names, each of its own root; and many more tags."""
    world = World(checks, program, folder)
    pair = Pair(world)
    roots = [f"refs/heads/b{at:03}" for at in range(150)]
    lines = "committer A <a@x> 1 +0000\ndata 1\nx\nM 160000"
    stream = "".join(f"commit {ref}\n{lines} {at + 1:064} f\n" for at, ref in enumerate(roots))
    world.output("source", "fast-import", "--quiet", given=stream.encode())
    world.output("source", "symbolic-ref", "HEAD", "refs/heads/b000")
    pair.clone()
    world.same_mirror("150 roots", "source", "r")
    lines = "tagger A <a@x> 1 +0000\ndata 1\nx"
    stream = "".join(f"tag t{at:03}\nfrom {name}\n{lines}\n" for at, name in enumerate(roots * 2))
    world.output("source", "fast-import", "--quiet", given=stream.encode())
    fetched = pair.fetch("300 tags")
    checks.same("what they name is not asked for again", [], fetched)
    checks.same("they are there", *(world.output(at, "show-ref", "--tags") for at in ("source", "copy")))
    world.same_mirror("150 roots and 300 tags", "source", "r")
    world.host.ends_well(checks, "after many")
