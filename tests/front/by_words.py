"""Requests by hand over SSH, what is not a command here, the log, and the limit of all caches."""
import os
import re
import subprocess

from lib.making import imported, history, line
from lib.program import Ran, done
from lib.waiting import until

LINE = re.compile(r"\d{4}-\d\d-\d\dT\d\d:\d\d:\d\dZ [a-z]+ [a-z-]+ [a-z0-9_-]+(?:\.git)? [a-z,-]+ \d+ \d+\n")


def show_words(world):
    """Requests of one tenant, answered as by the host; each is a line of the log."""
    checks = world.checks
    told = lambda *words: world.by_hand("alice", *words)
    no = lambda text: Ran(1, b"", f"forkhost: {text}\n".encode())
    checks.same("init", done(), told("init", "r"))
    checks.same("init again", no("repository-exists r"), told("init", "r"))
    checks.same("init with .git", no("bad-name a.git"), told("init", "a.git"))
    checks.same("init with a slash", no("bad-name a/"), told("init", "a/"))
    checks.same("head", done(b"refs/heads/main\n"), told("head", "r"))
    checks.same("set-head", done(), told("set-head", "r", "refs/heads/x"))
    checks.same("head again", done(b"refs/heads/x\n"), told("head", "r"))
    checks.same("set-head of no branch", no("bad-ref refs/tags/v"), told("set-head", "r", "refs/tags/v"))
    line(world, world.repository("source"), "one")
    world.succeeds("a push", world.git("source", "push", "-q", world.url("r"), "main:x", "main"))
    checks.same("fork", done(), told("fork", "r", "s"))
    checks.same("repos", done(b"r\ns\n"), told("repos"))
    checks.same("repos of bob", done(), world.by_hand("bob", "repos"))
    checks.same("the fork has the references", world.kept("r"), world.kept("s"))
    world.cloned("the fork", "s")
    used = world.ask("alice", "quota").output
    checks.same("quota", done(used), told("quota"))
    row = world.ask("alice", "for-each-ref", "r").output
    checks.same("for-each-ref", done(row), told("for-each-ref", "r"))
    show_offer(world)
    checks.same("the cache of s is there", True, os.path.isdir(world.cache("s")))
    checks.same("drop", done(), told("drop", "s"))
    checks.same("the cache of s is gone", [False] * 3, [os.path.exists(world.cache("s") + end) for end in ENDS])
    checks.same("prune", done(), told("prune"))
    checks.same("and all others", [False] * 3, [os.path.exists(world.cache("r") + end) for end in ENDS])
    ran = world.git(None, "ls-remote", world.url("s"))
    said = b"forkhost: repository 's' of tenant 'alice' not found"
    checks.same("s is not found", (128, True), (ran.status, ran.fault.startswith(said)))
    checks.same("and leaves no file", [False] * 3, [os.path.exists(world.cache("s") + end) for end in ENDS])
    show_log(world)
    show_left(world)
    show_relative(world)
    show_unwritable(world)
    show_no_commands(world)
    world.host.ends_well(checks, "after words")


def show_offer(world):
    """A fork between two people: what is offered is cloned by the one who forks it, and the giver is told nothing."""
    checks = world.checks
    told = lambda tenant, *words: world.by_hand(tenant, *words)
    no = lambda text: Ran(1, b"", f"forkhost: {text}\n".encode())
    checks.same("nothing is offered", no("no-offer alice/r"), told("bob", "fork-offer", "alice", "r", "mine"))
    checks.same("offer", done(), told("alice", "offer", "r", "bob"))
    checks.same("offer again", no("offer-exists bob/r"), told("alice", "offer", "r", "bob"))
    checks.same("offers to bob", done(b"from alice r\n"), told("bob", "offers"))
    checks.same("fork-offer with .git", no("bad-name b.git"), told("bob", "fork-offer", "alice", "r", "b.git"))
    checks.same("fork-offer", done(), told("bob", "fork-offer", "alice", "r", "mine"))
    checks.same("the fork has the references", world.kept("r"), world.kept("mine", "bob"))
    world.cloned("the fork of the offer", "mine", tenant="bob")
    checks.same("offers of alice", done(b"to bob r\n"), told("alice", "offers"))
    checks.same("withdraw", done(), told("alice", "withdraw", "r", "bob"))
    checks.same("withdraw again", no("no-offer bob/r"), told("alice", "withdraw", "r", "bob"))
    checks.same("none stands", done(), told("bob", "offers"))


def show_left(world):
    """A repository goes in another way than by the front end: who makes one of its name finds nothing of it."""
    tip = world.name("source", "main")
    for label, words in {"init": ["init", "left"], "fork": ["fork", "r", "left"]}.items():
        world.ask("alice", "init", "left")
        world.succeeds(f"{label}: a push", world.git("source", "push", "-q", world.url("left"), "main"))
        world.ask("alice", "drop", "left")
        world.checks.same(f"{label}: the cache is left", True, tip in world.in_cache("left"))
        world.checks.same(label, done(), world.by_hand("alice", *words))
        world.checks.same(f"{label}: the cache is gone", [False] * 3, [os.path.exists(world.cache("left") + end) for end in ENDS])
        world.ask("alice", "drop", "left")


ENDS = ("", ".lock", ".use")


def show_unwritable(world):
    """Something else is at the place of a lock: the user is told what failed, and the log where."""
    place = world.cache("new") + ".lock"
    os.mkdir(place)
    world.ask("alice", "init", "new")
    world.logged()
    ran = world.git(None, "ls-remote", world.url("new"))
    said = b"forkhost: the front end failed: Is a directory\n"
    world.checks.same("a lock that is a folder: is told", (128, True), (ran.status, ran.fault.startswith(said)))
    told = [" ".join(row[1:]) for row in world.logged() if row[1] == "fault"]
    world.checks.same("a lock that is a folder: the log", [f"fault new [Errno 21] Is a directory: '{place}'"], told)
    os.rmdir(place)


def show_relative(world):
    """The settings' file is named from where the front end begins, which is not where Git runs the hook of a push."""
    tip = world.name("source", "main")
    words = f"{world.shell()} --settings front alice"
    server = world.path("by_name")
    world.write("by_name", f'#!/bin/sh\nexport SSH_ORIGINAL_COMMAND="$2"\ncd {world.folder} && exec {words}\n')
    os.chmod(server, 0o700)
    more = {"GIT_SSH_COMMAND": server, "GIT_SSH_VARIANT": "simple"}
    ran = world.git("source", "push", "-q", world.url("r"), "main:refs/heads/relative", more=more)
    world.succeeds("a push by settings of a relative name", ran)
    world.checks.same("is there", True, f"{tip} refs/heads/relative" in world.kept("r"))


def show_log(world):
    checks = world.checks
    with open(world.path("log"), encoding="utf-8") as file:
        lines = file.readlines()
    requests = [text for text in lines if " cache " not in text]
    checks.same("each request is a line of one form", [], [text for text in requests if not LINE.fullmatch(text)])
    words = [" ".join(text.split()[1:5]) for text in requests]
    wanteds = ["alice init r ok", "alice init r repository-exists", "alice git-receive-pack r ok", "bob fork-offer mine ok"]
    wanteds += ["alice init a.git bad-name", "alice init - bad-name", "bob fork-offer b.git bad-name"]
    for wanted in wanteds:
        checks.same(f"the log has: {wanted}", 1, words.count(wanted))
    checks.same("the log has: a repository that is not there", "alice git-upload-pack s no-repository", words[-1])
    checks.same("nobody else reads it", 0, os.stat(world.path("log")).st_mode & 0o077)
    for folder in (world.caches, os.path.join(world.caches, "alice")):
        checks.same("nor the caches", 0o700, os.stat(folder).st_mode & 0o777)


def show_no_log(world):
    """A log that cannot be written: serving goes on, and the user does not notice."""
    more = {"SSH_ORIGINAL_COMMAND": "quota"}
    for label, log in {"no folder": "no/log", "a folder": "", "no text": "no\udcff/log"}.items():
        rows = f"socket {world.host.socket}\ncaches {world.caches}\nlog {world.path(log)}\n"
        with open(world.path("unlogged"), "wb") as file:
            file.write(os.fsencode(rows))
        ran = world.ran(world.shell(), "--settings", world.path("unlogged"), "alice", more=more)
        world.checks.same(f"without a log: {label}", done(world.ask("alice", "quota").output), ran)


NO_COMMANDS = {
    "": "there is no shell here",
    "sh": "'sh' is not a command here",
    "git-upload-archive 'r.git'": "git-upload-archive is not served",
    "git upload-archive r": "git-upload-archive is not served",
    "git-upload-pack '../bob/r'": "is not a repository name",
    "git-upload-pack '/etc'x": "repository 'etcx' of tenant 'alice' not found",
    "git-upload-pack r --help": "is not a repository name",
    "git-upload-pack 'r'; touch GOT": "is not a repository name",
    "git-upload-pack '$(touch GOT)'": "is not a repository name",
    "git-upload-pack 'R'": "is not a repository name",
    "git-upload-pack": "is not a repository name",
    "git-receive-pack 'r": "an unclosed quote",
    "git-shell": "'git-shell' is not a command here",
    "git gc": "'git-gc' is not a command here",
    "push r -": "'push' is not a command here",
    "init": "'init' takes REPO",
    "cat-file": "'cat-file' takes NAME",
    "cat-file x": "'cat-file' takes a name of 64 digits",
    "ls-tree x": "'ls-tree' takes a name of 64 digits",
    f"cat-file {'AB' * 32}": "'cat-file' takes a name of 64 digits",
    f"ls-tree {'ab' * 33}": "'ls-tree' takes a name of 64 digits",
    "offer r": "'offer' takes REPO TENANT",
    "for-each-ref": "'for-each-ref' takes REPO [PREFIX]",
    "for-each-ref r a b": "'for-each-ref' takes REPO [PREFIX]",
    "rev-list": "'rev-list' takes REPO ITEM ..",
    "rev-list r": "'rev-list' takes REPO ITEM ..",
    "quota x": "'quota' takes no words",
    "repos x": "'repos' takes no words",
    "init 'a b'": "a word cannot contain a space",
    "init 'a\nb'": "a word cannot contain a space",
    "collect": "'collect' is not a command here",
}


def show_no_commands(world):
    """What is not a command here is reported, and nothing is run."""
    for command, text in NO_COMMANDS.items():
        ran = world.by_hand("alice", *([command.replace("GOT", world.path("got"))] if command else []))
        wanted = (128, b"", True, False)
        told = (ran.status, ran.output, text.encode() in ran.fault, b"Traceback" in ran.fault)
        world.checks.same(f"no command: {command!r}", wanted, told)
    told = {" ".join(row[:4]) for row in world.logged()[-len(NO_COMMANDS) :]}
    wanted = {"alice - - refused", "alice git-upload-pack etcx no-repository"}
    world.checks.same("the log tells none of it", wanted, told)
    world.checks.same("nothing was run", False, os.path.exists(world.path("got")))
    for words in ([], ["alice", "bob"], ["@host"], ["Alice"], ["--settings", world.path("front")]):
        ran = world.ran(world.shell(), *words)
        world.checks.same(f"no tenant: {words}", (128, True), (ran.status, b"usage: forkhost-shell" in ran.fault))
    show_no_log(world)
    wrong = {"socket /x\n": "does not set caches", "socket /x\nsocket /y\n": "line 2 of", "what\n": "line 1 of"}
    wrong |= {"socket /x\ncaches /y\nbytes few\n": "not a number", "socket /x\ncaches /y\nelse z\n": "sets else"}
    wrong |= {"socket /x\ncaches y\n": "sets caches to a path", "socket x\ncaches /y\n": "sets socket to a path"}
    wrong |= {"route x\ncaches /y\n": "sets route to a path", "socket /x\ncaches /y\nlog z\n": "sets log to a path"}
    for text, said in wrong.items():
        world.write("wrong", text)
        ran = world.ran(world.shell(), "--settings", world.path("wrong"), "alice")
        world.checks.same(f"wrong settings: {text!r}", (128, True), (ran.status, said.encode() in ran.fault))


def show_unread(world):
    """Folders of somebody else beside those of the tenants, and one of a tenant that is open to others: requests are served."""
    checks = world.checks
    world.init("alice", "r")
    line(world, world.repository("source"), "one")
    os.mkdir(world.caches, 0o700)
    for folder in ("lost+found", "bob"):
        os.mkdir(os.path.join(world.caches, folder), 0o755)
        with open(os.path.join(world.caches, folder, "a.use"), "xb"):
            pass
    world.set(1000)
    world.logged()
    world.succeeds("a push beside what is not the front end's", world.git("source", "push", "-q", world.url("r"), "main"))
    why = f"the folder '{world.caches}/bob' is open to others"
    checks.same("the log tells why there is no room", [["alice", "cache", "r", "no-room", *why.split()]], of_caches(world))
    world.host.ends_well(checks, "after what cannot be read")


def of_caches(world):
    return [row for row in world.logged() if row[1] == "cache"]


def show_bound(world):
    """What was used least recently goes where all caches have more bytes than they may; what is in use stays."""
    checks = world.checks
    world.repository("source")
    imported(world, "long", history(40, size=400))
    names = ["a", "b", "c"]
    world.init("alice", *names)
    for name in names:
        world.succeeds(f"{name} is pushed", world.git("long", "push", "-q", world.url(name), "main"))
    checks.same("all are there", names, there(world))
    most = bytes_of(world.cache("a")) * 5 // 2
    world.set(most)
    world.succeeds("a is used", world.git(None, "ls-remote", world.url("a")))
    checks.same("nothing grew, and nothing goes", names, there(world))
    child = holder(world, "b")
    line(world, "long", "more", parent=world.name("long", "main"))
    world.succeeds("c grows", world.git("long", "push", "-q", world.url("c"), "main"))
    checks.same("b is in use, so a goes", ["b", "c"], there(world))
    child.kill()
    child.wait()
    world.succeeds("a is used", world.git(None, "ls-remote", world.url("a")))
    checks.same("and b goes, which was used before c", ["a", "c"], there(world))
    told = [row[2:4] for row in world.logged() if row[1] == "cache"]
    checks.same("the log tells both", [["a", "removed"], ["b", "removed"]], told)
    world.cloned("what went comes again", "b")
    world.set(1)
    world.remove(world.cache("a"))
    world.cloned("one that is above the bound by itself is served", "a")
    checks.same("and goes after its request, as all others", [], there(world))
    os.chmod(world.path("caches", "alice"), 0o755)
    ran = world.git(None, "ls-remote", world.url("a"))
    told = (ran.status, ran.fault.startswith(b"forkhost: the front end failed\n"))
    checks.same("a folder that is open to others is not used", (128, True), told)
    checks.same("and the user is not told which", False, world.folder.encode() in ran.fault)
    why = f"alice fault a the folder '{world.path('caches', 'alice')}' is open to others"
    checks.same("the log is", True, why.split() in world.logged())
    world.host.ends_well(checks, "after the bound")


def there(world):
    return [name for name in ("a", "b", "c") if os.path.isdir(world.cache(name))]


def bytes_of(cache):
    return sum(os.path.getsize(os.path.join(at, name)) for at, _, names in os.walk(cache) for name in names)


def holder(world, name):
    """A process that uses a cache, as one that serves a slow client."""
    path = world.cache(name) + ".use"
    child = subprocess.Popen(["flock", "--no-fork", "-s", path, "sleep", "60"])
    until(lambda: subprocess.run(["flock", "-n", "-x", path, "true"]).returncode)
    return child
