"""What Git asks of a helper that nobody asked Git for; and a push that makes its repository, if that is wanted."""
from lib.making import commit, line
from lib.program import done
from lib.watching import Watcher
from lib.world import World


def show_rounds(checks, program, folder):
    """Git fetches tags in a second round, and nothing is said of it; a fetch of nothing is a listing and no more."""
    world = World(checks, program, folder)
    world.init("alice", "r")
    line(world, world.repository("source"), "one", "two")
    world.succeeds("a push", world.git("source", "push", "-q", world.url("r"), "main"))
    watcher = Watcher(world.path("watched"), world.host.socket)
    copy = "copy"
    world.succeeds("a clone", world.git(None, "clone", "-q", f"forkhost::{watcher.path}/alice/r", copy))
    for name in ("v1", "v2"):
        world.output("source", "tag", "-a", "-m", "x", name, "main~1")
    world.output("source", "push", "-q", world.url("r"), "v1", "v2")
    ran = world.succeeds("a fetch", world.git(copy, "fetch"))
    checks.same("of tags says nothing of depth", False, b"ignored" in ran.fault)
    checks.same("and brings them", ["v1", "v2"], world.output(copy, "tag").split())
    ran = world.git(copy, "fetch", "--depth=1")
    checks.same("where depth is asked for it is said", (0, True), (ran.status, b"--depth is ignored" in ran.fault))
    world.output("source", "push", "-q", "-d", world.url("r"), "v1", "v2")
    watcher.taken()
    checks.same("a fetch of nothing", done(), world.git(copy, "fetch"))
    checks.same("is two requests", ["for-each-ref", "head"], watcher.words())
    ran = world.git("source", "push", world.url("r"), ":refs/heads/nothing")
    said = b"forkhost: warning: deleting a non-existent ref\n"
    checks.same("a deletion of nothing", (0, True), (ran.status, said in ran.fault))
    world.host.ends_well(checks, "after rounds")


def show_autocreate(checks, program, folder):
    """A push makes the repository where `forkhost.autocreate` is set, and else not."""
    world = World(checks, program, folder, "alice=1000000", "bob=1000000")
    (tip,) = line(world, world.repository("source"), "one")
    missing = f"fatal: forkhost: repository 'r' of tenant 'alice' not found"
    for words in ([], ["-c", "forkhost.autocreate=false"]):
        ran = world.git("source", *words, "push", "-q", world.url("r"), "main")
        checks.same(f"a push {words}", (128, True), (ran.status, ran.fault.decode().startswith(missing)))
    wanted = ["-c", "forkhost.autocreate=true"]
    world.succeeds("a dry push", world.git("source", *wanted, "push", "-n", "-q", world.url("r"), "main"))
    checks.same("makes none", 1, world.ask("alice", "head", "r").status)
    ran = world.git("source", *wanted, "push", world.url("r"), "main")
    said = b"forkhost: made repository 'r' of tenant 'alice'\n"
    checks.same("a push that makes one", (0, True), (ran.status, said in ran.fault))
    checks.same("all is there", [f"{tip} refs/heads/main"], world.kept("r"))
    tip = commit(world, "source", "two", tip)
    ran = world.git("source", *wanted, "push", "-q", world.url("r"), "main")
    checks.same("the next push makes none", done(), ran)
    for words in (["fetch"], ["ls-remote"]):
        ran = world.git("source", *wanted, *words, world.url("s"))
        checks.same(f"{words[0]} makes none", (128, 1), (ran.status, world.ask("alice", "head", "s").status))
    ran = world.git("source", *wanted, "push", "-q", world.url("r", "carol"), "main")
    checks.same("there is no such tenant", (128, b"fatal: forkhost: the host has no tenant 'carol'\n"), ran[::2])
    world.output("source", "config", "forkhost.autocreate", "true")
    names = [f"r{at}" for at in range(256)]
    for name in names[1:]:
        world.ask("alice", "init", name)
    ran = world.git("source", "push", "-q", world.url("more"), "main")
    said = b"fatal: forkhost: tenant 'alice' has as many repositories as a tenant may have\n"
    checks.same("more than a tenant has", (1, True), (ran.status, said in ran.fault))
    world.host.ends_well(checks, "after what was made")
