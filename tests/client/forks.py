"""A fork between two people, from an offer to what comes back, as docs/CLIENTS.md has it."""
from client.by_hand import refused
from lib.making import commit, line
from lib.pages import block
from lib.program import done
from lib.world import World

PLACE = "/run/forkhost/socket"


def begun(checks, program, folder):
    """A host on which alice has a repository with two commits, and her clone of it."""
    world = World(checks, program, folder, "alice=100000", "bob=100000")
    world.init("alice", "r")
    line(world, world.repository("source"), "one", "two")
    world.succeeds("alice pushes", world.git("source", "push", "-q", world.url("r"), "main"))
    world.cloned("alice clones", "r", name="hers")
    return world


def show_pull_request(checks, program, folder):
    """The page's lines as they stand: alice has bob's commit, and he has what she offered."""
    world = begun(checks, program, folder)
    lines = block("docs/CLIENTS.md", "A fork between two people", "fork-offer")
    checks.same("ten lines", 10, lines.count("\n"))
    old, url = world.name("source", "main"), world.url("r", "bob")
    told = f"repository 'r' of tenant 'bob' not found; 'forkhost-ask {world.host.socket} bob init r' makes it"
    ran = world.git(None, "ls-remote", url)
    checks.same("bob has nothing before", (128, b"", f"fatal: forkhost: {told}\n".encode()), ran)
    ran = world.ran("bash", "-e", given=lines.replace(PLACE, world.host.socket).encode())
    checks.same("they succeed, and say nothing", done(), ran)
    new = world.name("his", "main")
    checks.same("bob went on from her commit", old, world.name("his", "main~1"))
    checks.same("alice's repository has his commit", [f"{new} refs/heads/main"], world.kept("r"))
    checks.same("his fork has it", [f"{new} refs/heads/main"], world.kept("r", "bob"))
    same_clone(world, "alice", new)
    world.sound("her clone", "hers")
    checks.same("offers stand", done(b"from bob r\nto bob r\n"), world.ask("alice", "offers"))
    used = [world.ask(tenant, "quota").output for tenant in ("alice", "bob")]
    checks.same("each pays for all", used[0], used[1])
    show_end(world, new)
    world.host.ends_well(checks, "after a pull request")


def same_clone(world, tenant, new):
    """A mirror of the tenant's repository has bob's commit and all that it leads to, and nothing else."""
    copy = world.cloned(f"{tenant} clones", "r", "--mirror", tenant=tenant, name="mirror")
    world.checks.same(f"{tenant}'s references", [f"{new} refs/heads/main"], world.references(copy))
    world.checks.same(f"{tenant}'s objects", world.reached("his"), world.objects(copy))


def show_end(world, new):
    """All is taken back that was made on the way, and both keep what they have."""
    checks = world.checks
    turns = [("alice", "drop", "from-bob"), ("alice", "withdraw", "r", "bob"), ("bob", "withdraw", "r", "alice")]
    for tenant, *words in [*turns, ("alice", "prune"), ("bob", "prune")]:
        checks.same(f"{tenant}: {words}", done(), world.ask(tenant, *words))
    for tenant in ("alice", "bob"):
        checks.same(f"{tenant} has it still", [f"{new} refs/heads/main"], world.kept("r", tenant))
        checks.same(f"{tenant} has no offers", done(), world.ask(tenant, "offers"))
        same_clone(world, tenant, new)


def show_offered_head(checks, program, folder):
    """A clone of what was forked of an offer is on the branch of that moment; a later state wants another offer."""
    world = begun(checks, program, folder)
    checks.same("a branch", 0, world.git("source", "push", "-q", world.url("r"), "main~1:refs/heads/x").status)
    checks.same("HEAD is set", done(), world.ask("alice", "set-head", "r", "refs/heads/x"))
    checks.same("an offer", done(), world.ask("alice", "offer", "r", "bob"))
    checks.same("HEAD is set back", done(), world.ask("alice", "set-head", "r", "refs/heads/main"))
    world.succeeds("the branch goes", world.git("source", "push", "-q", world.url("r"), ":x"))
    commit(world, "source", "three", world.name("source", "main"))
    world.succeeds("alice goes on", world.git("source", "push", "-q", world.url("r"), "main"))
    checks.same("she prunes", done(), world.ask("alice", "prune"))
    checks.same("bob forks", done(), world.ask("bob", "fork-offer", "alice", "r", "early"))
    early = world.cloned("of the first offer", "early", tenant="bob", name="early")
    checks.same("it is on its branch", "x", world.output(early, "symbolic-ref", "--short", "HEAD"))
    checks.same("and as it was", world.name("source", "main~2"), world.name(early, "HEAD"))
    checks.same("main is as it was", world.name("source", "main~1"), world.name(early, "origin/main"))
    checks.same("another offer", refused("offer-exists bob/r"), world.ask("alice", "offer", "r", "bob"))
    for words in (["withdraw", "r", "bob"], ["offer", "r", "bob"]):
        checks.same(f"alice: {words}", done(), world.ask("alice", *words))
    checks.same("bob forks anew", done(), world.ask("bob", "fork-offer", "alice", "r", "late"))
    world.succeeds("and fetches", world.git(early, "fetch", "-q", world.url("late", "bob"), "main:late"))
    checks.same("what she has now", world.name("source", "main"), world.name(early, "late"))
    world.same_mirror("his second fork", "source", "late", tenant="bob")
    world.host.ends_well(checks, "after two offers")
