"""One request by hand, and the door of one tenant."""
import os
import shlex
import socket
import subprocess
import threading

from lib.frames import BAD_FRAME, frame, framed
from lib.live import to_end
from lib.making import line, name_of
from lib.pages import block
from lib.program import Ran, done
from lib.waiting import until, until_it_waits
from lib.world import CLIENTS, World

MAX_PAYLOAD = 1_048_576
BLOB = b"hello\n"
NAME = name_of(b"blob", BLOB)


def refused(*texts):
    return Ran(1, b"", "".join(f"forkhost-ask: {text}\n" for text in texts).encode())


UNKNOWN = refused("bad-request", "these words are not a request; forkhost-requests(7) has them")
OF_HOST = UNKNOWN._replace(fault=UNKNOWN.fault + b"forkhost-ask: ask it as @host\n")


def show_asking(checks, program, folder):
    """Data on standard output; a refusal is status 1, a host fault 2, and so is what cannot be asked."""
    world = World(checks, program, folder, "alice=1000", "bob=1000")
    body = b"create refs/tags/v %s\n\n%s blob 6\nhello\n\n" % (NAME.encode(), NAME.encode())
    row = f"{NAME} blob\trefs/tags/v\n".encode()
    turns = [
        (["alice", "init", "r"], b"", done()),
        (["alice", "init", "r"], b"", refused("repository-exists r")),
        (["alice", "push", "r", "-"], body, done()),
        (["alice", "cat-file", NAME], b"", done(b"%s blob 6\nhello\n\n" % NAME.encode())),
        (["bob", "cat-file", NAME], b"", refused(f"missing {NAME}")),
        (["alice", "for-each-ref", "r"], b"", done(row)),
        (["alice", "head", "r"], b"", done(b"refs/heads/main\n")),
        (["alice", "set-head", "r", "refs/heads/x"], b"", done()),
        (["alice", "head", "r"], b"", done(b"refs/heads/x\n")),
        (["alice", "set-head", "r", "refs/tags/v"], b"", refused("bad-ref refs/tags/v")),
        (["alice", "set-head", "s", "HEAD"], b"", refused("no-repository s")),
        (["alice", "set-head", "r"], b"", UNKNOWN),
        (["alice", "set-head", "r", "refs/heads/x", "-"], b"x", UNKNOWN),
        (["bob", "head", "r"], b"", refused("no-repository r")),
        (["alice", "offer", "r", "bob"], b"", done()),
        (["alice", "offer", "r", "bob"], b"", refused("offer-exists bob/r")),
        (["alice", "offer", "r", "alice"], b"", refused("bad-name alice")),
        (["alice", "offer", "r"], b"", UNKNOWN),
        (["alice", "offers"], b"", done(b"to bob r\n")),
        (["bob", "offers"], b"", done(b"from alice r\n")),
        (["bob", "offers", "-"], b"x", UNKNOWN),
        (["bob", "fork-offer", "alice", "s", "s"], b"", refused("no-offer alice/s")),
        (["bob", "fork-offer", "alice", "r", "s"], b"", done()),
        (["bob", "for-each-ref", "s"], b"", done(row)),
        (["bob", "head", "s"], b"", done(b"refs/heads/x\n")),
        (["alice", "withdraw", "r", "bob"], b"", done()),
        (["alice", "withdraw", "r", "bob"], b"", refused("no-offer bob/r")),
        (["bob", "fork-offer", "alice", "r", "t"], b"", refused("no-offer alice/r")),
        (["bob", "cat-file", NAME], b"", done(b"%s blob 6\nhello\n\n" % NAME.encode())),
        (["alice", "part", "-"], body[:40], done()),
        (["alice", "part", "-"], b"", done()),
        (["alice", "part-drop"], b"", done()),
        (["alice", "quota"], b"", done(b"70 1000\n")),
        (["carol", "quota"], b"", refused("unknown-tenant")),
        (["alice", "nothing"], b"", UNKNOWN),
        (["alice", "init", "r\udcff"], b"", Ran(1, b"", b"forkhost-ask: bad-name r\xff\n")),
        (["alice", "quota", "-"], b"x", UNKNOWN),
        (["@host", "nothing"], b"", UNKNOWN),
        (["@host", "sweep"], b"", UNKNOWN),
        *((["alice", *words.split()], b"", OF_HOST) for words in ("sweep 1", "collect", "census", "fsck", "tenants", "fsck x")),
    ]
    for words, given, wanted in turns:
        words = [os.fsencode(word) for word in words]
        ran = world.ran("forkhost-ask", world.host.socket, *words, given=given)
        checks.same(f"by hand: {words}", wanted, ran)
    wrong = ([], ["alice"], ["alice", ""], ["alice", "init r"], ["alice", "quota\n"], ["", "quota"], ["a b", "quota"])
    for words in wrong:
        ran = world.ran("forkhost-ask", world.host.socket, *words)
        checks.same(f"by hand: {words} is no request", (2, b"", True), (*ran[:2], b"usage: forkhost-ask" in ran.fault))
    show_names_and_streams(world)
    show_length(world)
    ran = world.ran("forkhost-ask", world.path("nothing"), "alice", "quota")
    checks.same("by hand: nobody is there", (2, b"", True), (*ran[:2], b"cannot reach a host" in ran.fault))
    world.host.ends_well(checks, "after requests by hand")


def show_length(world):
    """The longest request is sent. One more byte is reported before a host is asked, as the host would hang up within it."""
    long = b"".rjust(MAX_PAYLOAD - len(b"part\n"), b"\n")
    told = f"forkhost-ask: the request has more than {MAX_PAYLOAD} bytes; a push can be sent in parts\n".encode()
    for label, socket_path, given, wanted in (
        ("the longest", world.host.socket, long, done()),
        ("a byte more", world.host.socket, long + b"\n", Ran(2, b"", told)),
        ("far more, and nobody is there", world.path("nothing"), long * 3, Ran(2, b"", told)),
    ):
        world.checks.same(f"by hand: {label}", wanted, world.ran("forkhost-ask", socket_path, "alice", "part", "-", given=given))


def show_names_and_streams(world):
    """A wrong name is reported before a host is asked, and so is a standard stream that is needed and closed."""
    checks, nobody = world.checks, world.path("nothing")
    fault = lambda text: Ran(2, b"", f"forkhost-ask: {text}\n".encode())
    for tenant in ("ALICE", "@Host", "@", "-a", "a.b", "a" * 33, "\u00e9"):
        ran = world.ran("forkhost-ask", nobody, tenant, "repos")
        checks.same(f"by hand: {tenant} is no tenant", fault(f"'{tenant}' is not a tenant's name"), ran)
    usage = b"usage: forkhost-ask SOCKET TENANT WORD [ARG ..] [-]\n"
    checks.same("by hand: help", done(usage), world.ran("forkhost-ask", "--help"))
    run_closed = lambda script, *words: world.ran("sh", "-c", f'exec "$@" {script}', "sh", *words)
    closed = lambda script, *words: run_closed(script, "forkhost-ask", *words)
    for words in (["--help"], [nobody, "alice", "quota"]):
        ran = closed(">&-", *words)
        checks.same(f"by hand: {words[-1]}: no output", fault("standard output is closed"), ran)
    ran = closed("<&-", nobody, "alice", "part", "-")
    checks.same("by hand: no input", fault("standard input is closed"), ran)
    ran = closed("<&-", world.host.socket, "bob", "quota")
    checks.same("by hand: no input is wanted", done(b"70 1000\n"), ran)
    door, helper = ["forkhost-door", nobody, "alice"], ["git-remote-forkhost", "x", f"forkhost::{nobody}/alice/r"]
    for script, name in {">&-": "output", "<&-": "input"}.items():
        said = f"standard {name} is closed\n".encode()
        checks.same(f"a door: no {name}", Ran(2, b"", b"forkhost-door: " + said), run_closed(script, *door))
        checks.same(f"the helper: no {name}", Ran(128, b"", b"fatal: forkhost: " + said), run_closed(script, *helper))
    statuses = {("forkhost-ask", nobody, "alice", "quota"): 2, ("forkhost-door", nobody): 2, ("forkhost-shell",): 128}
    for words, status in statuses.items():
        checks.same(f"{words[0]}: nobody is told", Ran(status, b"", b""), run_closed("2>&-", *words))


class StandIn:
    """In the place of ssh and sshd: each connection to its socket runs the forced command of a line of
    `authorized_keys`, with the connection as its standard streams, and with what the user asked for beside."""

    def __init__(self, world, name, authorized, asked="git-upload-pack '/'"):
        self.path, self.world = world.path(name), world
        self.command, self.asked = forced_command(authorized), asked
        self.listener = socket.socket(socket.AF_UNIX)
        self.listener.bind(self.path)
        self.listener.listen(20)
        self.children = []
        threading.Thread(target=self.serve, daemon=True).start()

    def serve(self):
        outer = {**self.world.environment, "SSH_ORIGINAL_COMMAND": self.asked}
        while True:
            try:
                stream, _ = self.listener.accept()
            except OSError:
                return
            with stream:
                streams = {"stdin": stream, "stdout": stream, "stderr": subprocess.PIPE}
                self.children.append(subprocess.Popen(["sh", "-c", self.command], env=outer, **streams))

    def told(self, given):
        with socket.socket(socket.AF_UNIX) as stream:
            stream.settimeout(60)
            stream.connect(self.path)
            stream.sendall(given)
            stream.shutdown(socket.SHUT_WR)
            return to_end(stream)

    def end(self):
        """Its end, and that of each command it began."""
        self.listener.close()
        return [child.wait(timeout=60) for child in self.children]


def forced_command(authorized):
    """The command of a line of `authorized_keys`, which sshd runs whatever the user asks for."""
    options = authorized.split(" ssh-")[0]
    return shlex.split(options.split("command=", 1)[1].split(",restrict")[0])[0]


def authorized_line(socket_path, tenant, key):
    """A line as docs/CLIENTS.md has it."""
    form = block("docs/CLIENTS.md", "Users with keys", 'command="').rstrip("\n")
    replaced = form.replace("/srv/forkhost/clients", CLIENTS).replace("/srv/forkhost/socket", socket_path)
    return replaced.replace(" alice", f" {tenant}").replace("AAAA", key)


def show_door(checks, program, folder):
    """A forced command gives each key its tenant: Git works through it, and shows nothing of another tenant's."""
    world = World(checks, program, folder, "alice=1000000", "alice2=1000000", "bob=1000000")
    world.init("bob", "r")
    line(world, world.repository("source"), "one", "two")
    world.succeeds("bob pushes", world.git("source", "push", "-q", world.url("r", "bob"), "main"))
    door = StandIn(world, "door", authorized_line(world.host.socket, "alice", "AAAAkey"))
    url = lambda tenant, name: f"forkhost::{door.path}/{tenant}/{name}"
    checks.same("alice makes r", done(), world.ran("forkhost-ask", door.path, "alice", "init", "r"))
    world.succeeds("alice pushes", world.git("source", "push", "-q", url("alice", "r"), "main"))
    world.succeeds("alice clones", world.git(None, "clone", "-q", url("alice", "r"), "copy"))
    world.sound("what she cloned", "copy")
    checks.same("it is hers", world.references("source"), world.kept("r", "alice"))
    world.succeeds("alice pushes a branch", world.git("source", "push", "-q", url("alice", "r"), "main~1:refs/heads/x"))
    ran = world.ran("forkhost-ask", door.path, "alice", "set-head", "r", "refs/heads/x")
    checks.same("alice sets HEAD", done(), ran)
    world.succeeds("alice fetches", world.git("copy", "fetch", "-q"))
    told = done(b"origin/HEAD set to x\n")
    checks.same("Git asks for it", told, world.git("copy", "remote", "set-head", "origin", "-a"))
    world.succeeds("and the branch goes", world.git("source", "push", "-q", url("alice", "r"), ":x"))
    for who in ("bob", "carol"):
        ran = world.git(None, "ls-remote", url(who, "r"))
        wanted = (128, b"", f"fatal: forkhost: the host has no tenant '{who}'\n".encode())
        checks.same(f"{who} is nobody here", wanted, ran)
        ran = world.git("source", "push", url(who, "r"), "+main~1:main")
        checks.same(f"a push as {who}", 128, ran.status)
    ran = world.ran("forkhost-ask", door.path, "@host", "census")
    checks.same("nor is the operator", refused("unknown-tenant"), ran)
    checks.same("bob's has not changed", world.references("source"), world.kept("r", "bob"))
    show_frames(checks, world, door)
    checks.same("each command ended well", {0}, set(door.end()))
    world.host.ends_well(checks, "after the door")


def show_frames(checks, world, door):
    """Frames through the door: those of others are answered as by a host without them, and cost the host nothing."""
    quota, nobody = frame(b"alice", b"quota\n"), framed(b"no unknown-tenant\n")
    told = framed(b"ok\n" + world.ask("alice", "quota").output)
    turns = {
        "her own": (quota, told),
        "of others between": (frame(b"bob", b"quota\n") + quota + frame(b"@host", b"x") + quota, (nobody + told) * 2),
        "nothing": (b"", b""),
        "a longer name": (frame(b"alice2", b"quota\n"), nobody),
        "a frame that is cut": (quota[:-1], BAD_FRAME),
        "a line that is cut": (b"alice 6", BAD_FRAME),
        "a space before": (b" " + quota, BAD_FRAME),
        "a length with a zero": (b"alice 06\nquota\n", BAD_FRAME),
        "too long": (b"alice 1048577\n", BAD_FRAME),
        "no frame": (b"GET / HTTP/1.1\r\n\r\n", BAD_FRAME),
        "capitals": (b"Alice 6\nquota\n", BAD_FRAME),
        "right and then wrong": (quota + b"x", told + BAD_FRAME),
        "a great one of another's": (frame(b"bob", b"part\n" + b"x" * 1_048_571), nobody),
        "a great one": (frame(b"alice", b"part\n" + b"x" * 1_048_571), framed(b"ok\n")),
        "its end": (frame(b"alice", b"part-drop\n"), framed(b"ok\n")),
    }
    for label, (given, wanted) in turns.items():
        checks.same(f"through the door: {label}", wanted, door.told(given))
    with socket.socket(socket.AF_UNIX) as idle:
        before = len(door.children)
        idle.connect(door.path)
        idle.sendall(quota[:5])
        until(lambda: len(door.children) > before)
        until_it_waits(door.children[before].pid)
        checks.same("one that has sent no frame holds nobody", told, door.told(quota))
