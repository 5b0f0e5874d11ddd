"""Clones, listings, and what is said where a clone cannot be what was asked for."""
from lib.making import commit, everything, imported, history, line
from lib.world import World

EMPTY = b"warning: You appear to have cloned an empty repository.\n"


def show_clones(checks, program, folder):
    """A repository with all that Git has comes back as it was."""
    world = World(checks, program, folder)
    world.init("alice", "r")
    source = everything(world, "source")
    world.succeeds("a mirror is pushed", world.git(source, "push", "-q", "--mirror", world.url("r")))
    checks.same("the host has its references", world.references(source), world.kept("r"))
    world.same_mirror("all of it", source, "r")
    told = world.git(None, "ls-remote", world.url("r"))
    checks.same("ls-remote is as that of a folder", world.git(None, "ls-remote", world.path(source)), told)
    for words in (["--heads"], ["--tags"], ["--refs"], ["--symref"], ["--sort=-v:refname"]):
        wanted, told = (world.git(None, "ls-remote", *words, url) for url in (world.path(source), world.url("r")))
        checks.same(f"ls-remote {words[0]}", wanted.output, told.output)
    copy = world.cloned("a plain clone", "r")
    checks.same("its branch", "refs/heads/main", world.output(copy, "symbolic-ref", "HEAD"))
    checks.same("its work tree", "", world.output(copy, "status", "--porcelain"))
    head = world.output(copy, "symbolic-ref", "refs/remotes/origin/HEAD")
    checks.same("its remote HEAD", "refs/remotes/origin/main", head)
    tags = [row for row in world.references(source) if "refs/tags/" in row]
    checks.same("its tags", tags, [row for row in world.references(copy) if "refs/tags/" in row])
    show_chosen(world, source)
    world.remove("r")
    world.succeeds("a clone without a folder's name", world.git(None, "clone", "-q", world.url("r")))
    checks.same("is named as the repository", world.references(world.cloned("another", "r")), world.references("r"))
    world.host.ends_well(checks, "after clones")


def show_chosen(world, source):
    """Clones of a part are as those of a folder."""
    branches = (["-b", "topic/side"], ["-b", "v1"], ["-n", "-b", "x"])
    for words in (["--single-branch"], *branches, ["--no-tags"], ["--bare"]):
        label = f"clone {' '.join(words)}"
        copy = world.cloned(label, "r", *words)
        world.remove("other")
        world.output(None, "clone", "-q", "--no-local", *words, world.path(source), "other")
        world.checks.same(f"{label}: references", world.references("other"), world.references(copy))
        world.checks.same(f"{label}: objects", world.reached("other"), world.reached(copy))
        heads = [world.git(at, "rev-parse", "HEAD", "--symbolic-full-name", "HEAD") for at in ("other", copy)]
        world.checks.same(f"{label}: HEAD", *heads)


def show_empty(checks, program, folder):
    """A clone of what is empty is of the SHA-1 format, unless Git is set otherwise; the helper says so."""
    world = World(checks, program, folder)
    world.init("alice", "r")
    ran = world.succeeds("a clone of what is empty", world.git(None, "clone", "-q", world.url("r"), "copy"))
    checks.same("what to do is said", True, b"GIT_DEFAULT_HASH=sha256 git clone" in ran.fault and EMPTY in ran.fault)
    checks.same("nothing is listed", (0, b""), world.git(None, "ls-remote", world.url("r"))[:2])
    checks.same("its format", "sha1", world.output("copy", "rev-parse", "--show-object-format"))
    world.output("copy", "commit", "-q", "--allow-empty", "-m", "one")
    pushed = world.git("copy", "push", world.url("r"), "main")
    checks.same("a push from it", (128, b""), pushed[:2])
    checks.same("says why", True, b"object format of this repository is sha1, and the host's is sha256" in pushed.fault)
    checks.same("and nothing is there", [], world.kept("r"))
    default = {"GIT_DEFAULT_HASH": "sha256"}
    ran = world.git(None, "clone", "-q", world.url("r"), "second", more=default)
    checks.same("a clone of the right format", (0, b"", EMPTY), ran)
    tip = commit(world, "second", "one")
    world.succeeds("is pushed", world.git("second", "push", "-q", "origin", "main"))
    checks.same("and is there", [f"{tip} refs/heads/main"], world.kept("r"))
    listed = world.git("copy", "ls-remote", "origin")
    rows = f"{tip}\tHEAD\n{tip}\trefs/heads/main\n".encode()
    checks.same("a repository of the other format lists", (0, rows), listed[:2])
    fetched = world.git("copy", "fetch", "origin")
    checks.same("it can not fetch", (128, b""), fetched[:2])
    checks.same("and is told why", True, b"object format of this repository is sha1" in fetched.fault)
    world.host.ends_well(checks, "after empty ones")


IGNORED = {
    "--depth=1": b"forkhost: --depth is ignored: the whole history is fetched\n",
    "--shallow-since=2030-01-01": b"forkhost: --shallow-since is ignored: the whole history is fetched\n",
    "--shallow-exclude=v": b"forkhost: --shallow-exclude is ignored: the whole history is fetched\n",
    "--filter=blob:none": b"forkhost: --filter is ignored: the whole history is fetched\n",
}


def show_ignored(checks, program, folder):
    """What the host does not do is said, and all of the history comes."""
    world = World(checks, program, folder)
    world.init("alice", "r")
    line(world, world.repository("source"), "one", "two", "three")
    world.output("source", "tag", "v", "main~1")
    world.succeeds("the source is pushed", world.git("source", "push", "-q", "--mirror", world.url("r")))
    for word, text in IGNORED.items():
        world.remove("copy")
        ran = world.git(None, "clone", word, "--no-single-branch", world.url("r"), "copy")
        checks.same(f"clone {word}", (0, 1), (ran.status, ran.fault.count(text)))
        world.sound(f"clone {word}", "copy")
        checks.same(f"clone {word}: it is whole", world.reached("source"), world.reached("copy"))
        quiet = world.git("copy", "fetch", "-q", word, "origin")
        checks.same(f"fetch -q {word} says nothing of it", (0, False), (quiet.status, text in quiet.fault))
    world.host.ends_well(checks, "after what is ignored")


def show_ways(checks, program, folder):
    """Names of a remote, objects that are checked, few and many of them."""
    world = World(checks, program, folder)
    world.init("alice", "r", "many")
    (tip,) = line(world, world.repository("source"), "one")
    alias = f"url.forkhost::{world.host.socket}/alice/.insteadOf"
    world.succeeds("a push by an alias", world.git("source", "-c", f"{alias}=alice:", "push", "-q", "alice:r", "main"))
    world.succeeds("a clone by an alias", world.git(None, "-c", f"{alias}=alice:", "clone", "-q", "alice:r", "copy"))
    checks.same("few objects are a pack in a clone", "1", packs(world, "copy"))
    world.repository("fetched")
    world.succeeds("few are fetched", world.git("fetched", "fetch", "-q", world.url("r")))
    checks.same("and are loose", "0", packs(world, "fetched"))
    for end in (".git", ".git/", "/"):
        copy = world.cloned(f"an address that ends in {end}", "r" + end)
        checks.same(f"an address that ends in {end} is that of r", tip, world.name(copy, "main"))
    imported(world, "long", history(60))
    world.succeeds("a long history is pushed", world.git("long", "push", "-q", "--mirror", world.url("many")))
    world.same_mirror("a long history", "long", "many")
    checks.same("many objects are a pack", "1", packs(world, "mirror"))
    strict = ["-c", "fetch.fsckObjects=true"]
    world.remove("copy")
    world.succeeds("a clone that checks", world.git(None, *strict, "clone", "-q", world.url("many"), "copy"))
    world.succeeds("a remote of a name", world.git("source", "remote", "add", "host", world.url("many")))
    world.succeeds("is fetched", world.git("source", "fetch", "-q", "host"))
    checks.same("into its place", world.name("long", "main"), world.name("source", "host/main"))
    wrong = ["forkhost::/alice/r", "forkhost::socket/alice/r", f"forkhost::{world.host.socket}/Alice/r"]
    for url in wrong:
        ran = world.git(None, "ls-remote", url)
        wanted = f"fatal: forkhost: '{url[10:]}' is not of the form forkhost::/ABSOLUTE/SOCKET/TENANT/REPO\n"
        checks.same(f"a wrong address {url}", (128, b"", wanted.encode()), ran)
    world.host.ends_well(checks, "after ways")


def packs(world, at):
    counts = world.output(at, "count-objects", "-v").splitlines()
    return next(row.split(" ")[1] for row in counts if row.startswith("packs:"))
