"""A host that is held by another client, replies that are cut or are something else, and objects that are elsewhere."""
import select
import socket

from lib.frames import framed
from lib.making import commit, line
from lib.program import Ran
from lib.waiting import until
from lib.watching import Watcher
from lib.world import World, finished


def show_held(checks, program, folder):
    """Somebody holds the host's one connection: a client that has waited for five seconds says so, and waits on."""
    world = World(checks, program, folder)
    world.init("alice", "r")
    line(world, world.repository("source"), "one")
    waiting = b"forkhost: waiting: the host is serving another connection\n"
    with socket.socket(socket.AF_UNIX) as stream:
        stream.connect(world.host.socket)
        push = ["git", "push", "-q", world.url("r")]
        children = [world.begun(*push, f"main:refs/heads/b{number}", at="source") for number in range(2)]
        children.append(world.begun("git", "ls-remote", world.url("r")))
        children.append(world.begun("forkhost-ask", world.host.socket, "alice", "quota"))
        said = lambda: len(select.select([child.stderr for child in children[2:]], [], [], 0)[0]) == 2
        checks.same("two say that they wait", True, until(said))
        checks.same("they wait", [None] * 4, [child.poll() for child in children])
        checks.same("and wait on", False, until(lambda: any(child.poll() is not None for child in children), 1))
    told = [finished(child) for child in children]
    checks.same("then they are served", [0] * 4, [ran.status for ran in told])
    checks.same("who is not to be silent said it", [True, True], [waiting in ran.fault for ran in told[2:]])
    checks.same("each once", True, all(ran.fault.count(waiting) <= 2 for ran in told))
    checks.same("both pushes are there", 2, len(world.kept("r")))
    world.host.ends_well(checks, "after it was held")


LOST = "the host ended the connection"
FAILED = "the host failed (store) and this request changed nothing; it may be sent again"
UNREAD = "this is not a reply of a forkhost"
# What comes in the place of a reply's frame: how much of it, or what else; and what the user reads.
CUTS = {
    "no reply": (lambda reply: None, LOST),
    "a part of the length": (lambda reply: reply[:1].replace(b"\n", b""), UNREAD),
    "the length alone": (lambda reply: reply[: reply.index(b"\n") + 1], LOST + " within a reply"),
    "all but a byte": (lambda reply: reply[:-1], LOST + " within a reply"),
    "half": (lambda reply: reply[: max(len(reply) // 2, reply.index(b"\n") + 2)], LOST + " within a reply"),
    "a bad frame": (lambda reply: b"! bad-frame\n", "the host reported a bad frame and ended the connection"),
    "garbage": (lambda reply: b"HTTP/1.1 400 Bad Request\r\n\r\n", UNREAD),
    "a reply of no kind": (lambda reply: b"6\nyes ok", UNREAD),
    "a length with zeros": (lambda reply: b"0003\nok\n", UNREAD),
    "a host fault": (lambda reply: b"11\nhost store\n", FAILED),
    "an unknown refusal": (lambda reply: b"15\nno never-heard\n", "the host refused: never-heard"),
}


# Replies to these are cut in every way, and others in some.
WHOLE, SOME = ("for-each-ref", "fetch", "push"), ("no reply", "half", "a host fault")


def show_cuts(checks, program, folder):
    """Each reply in turn is cut, or is something else: that is reported in words, without a traceback."""
    world = World(checks, program, folder)
    world.init("alice", "r")
    first, _ = line(world, world.repository("source"), "one", "two")
    world.output("source", "tag", "-a", "-m", "x", "v", "main")
    world.succeeds("a push", world.git("source", "push", "-q", world.url("r"), f"{first}:refs/heads/main", "v"))
    at = {"word": None, "way": None, "first": first}
    meddle = lambda line, reply: at["way"](reply) if line.split(" ")[0] == at["word"] else reply
    watcher = Watcher(world.path("watched"), world.host.socket, meddle)
    url = f"forkhost::{watcher.path}/alice/r"
    tries = {
        "for-each-ref": ["ls-remote", url],
        "head": ["ls-remote", url],
        "cat-file": ["ls-remote", url],
        "rev-list": ["fetch", url, "main:copy"],
        "fetch": ["fetch", url, "main:copy"],
        "part-drop": ["push", "--porcelain", url, "main"],
        "push": ["push", "--porcelain", url, "main"],
    }
    line(world, world.repository("other"), "else")
    for word, words in tries.items():
        for label in CUTS if word in WHOLE else SOME:
            way, text = CUTS[label]
            world.ask("alice", "update-refs", "r", given=f"update refs/heads/main {first}\n".encode())
            at["word"], at["way"] = word, way
            where = "other" if words[0] == "fetch" else "source"
            ran = world.git(where, *words)
            said = (ran.fault + ran.output).decode()
            wanted = (True, True, False)
            checks.same(f"{word}: {label}", wanted, (ran.status != 0, text in said, "Traceback" in said))
            if word == "fetch":
                checks.same(f"{word}: {label}: no reference has come", 1, len(world.references("other")))
            if word == "push" and text in (LOST, UNREAD):
                checks.same(f"{word}: {label}: it may be done", True, "whether the push was done is unknown" in said)
            if word == "part-drop":
                checks.same(f"{word}: {label}: the host is as before", f"{first} refs/heads/main", world.kept("r")[0])
        if word in ("for-each-ref", "fetch"):
            world.sound(f"after {word}", "other")
    at["word"], at["way"] = "for-each-ref", lambda reply: b"99999999999999999999\nok\n"
    ran = world.git("source", "ls-remote", url)
    told = (ran.status, (LOST + " within a reply").encode() in ran.fault, b"Traceback" in ran.fault)
    checks.same("a length beyond all memory", (128, True, False), told)
    show_forms(world, at, tries)
    show_hand_cuts(world, watcher, at)
    world.host.ends_well(checks, "after cuts")


def show_forms(world, at, tries):
    """A reply is done, and its data is none that belongs there."""
    forms = [b"something else\n", b"\n", b"x" * 100, b"\xff\n", b"ab" * 32 + b"\n", b"ab" * 32 + b" blob 9\n\n"]
    for word, words in tries.items():
        for data in forms:
            world.ask("alice", "update-refs", "r", given=f"update refs/heads/main {at['first']}\n".encode())
            at["word"], at["way"] = word, lambda reply: framed(b"ok\n" + data)
            ran = world.git("other" if words[0] == "fetch" else "source", *words)
            said = (ran.fault + ran.output).decode()
            is_told = "forkhost: " in said or "[remote rejected] (" in said
            world.checks.same(f"{word}: {data!r}", (True, True, False), (ran.status != 0, is_told, "Traceback" in said))


def show_hand_cuts(world, watcher, at):
    """The same by hand: a fault is status 2."""
    at["word"] = "quota"
    for label, (way, text) in CUTS.items():
        at["way"] = way
        ran = world.ran("forkhost-ask", watcher.path, "alice", "quota")
        status, said = (1, "never-heard") if label == "an unknown refusal" else (2, text)
        wanted = Ran(status, b"", f"forkhost-ask: {said}\n".encode())
        world.checks.same(f"by hand: {label}", wanted, ran._replace(output=b""))


def show_nested(checks, program, folder):
    """A partial clone made elsewhere lacks objects: a push of it ends in words, and does not wait for itself."""
    world = World(checks, program, folder)
    world.init("alice", "r")
    commit(world, world.repository("source"), "one", files={"a": "a" * 5000, "b": "b" * 5000})
    world.output("source", "config", "uploadpack.allowFilter", "true")
    source = f"file://{world.path('source')}"
    world.output(None, "clone", "-q", "--no-checkout", "--filter=blob:none", source, "partial")
    world.output("partial", "config", "remote.origin.url", world.url("r"))
    ran = world.git("partial", "push", "origin", "main")
    checks.same("a push of what is not here", (True, False), (ran.status != 0, b"Traceback" in ran.fault))
    checks.same("nothing has come of it", [], world.kept("r"))
    world.succeeds("the whole of it is pushed", world.git("source", "push", "-q", world.url("r"), "main"))
    world.succeeds("what lacked is fetched when it is wanted", world.git("partial", "checkout", "-q", "main"))
    checks.same("and is right", "a" * 5000, world.output("partial", "show", "HEAD:a"))
    world.host.ends_well(checks, "after a partial clone")
