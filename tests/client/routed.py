"""Two hosts behind one table: the door and the front end find the host of each tenant, and follow the table."""
import os
import select

from client.by_hand import StandIn
from client.doors import NOBODY, QUOTA, User
from lib.frames import frame, framed
from lib.making import line
from lib.pages import block
from lib.program import Ran, done
from lib.world import CLIENTS, Host, World

GRANTS = {"alice": "alice=1000000", "bob": "bob=2000000"}
DOWN = "the host cannot be reached"
FETCH = "git-upload-pack"


def quota(limit, used=0):
    return framed(b"ok\n%d %d\n" % (used, limit))


class Routed:
    """alice on one host, bob on another, and a table of both."""

    def __init__(self, checks, program, folder):
        self.checks, self.world = checks, World(checks, program, folder, GRANTS["alice"])
        os.mkdir(self.world.path("second"))
        self.second = Host(program, self.world.path("second"), GRANTS["bob"])
        self.first, self.table = self.world.host, self.world.path("table")
        page = block("docs/SCALING.md", "Route", "alice")
        self.write(page.replace("/run/forkhost/one", self.first.socket).replace("/run/forkhost/two", self.second.socket) + "\n")

    def write(self, text):
        """Another table, put in place in one step."""
        with open(self.table + ".new", "w", encoding="utf-8") as file:
            file.write(text)
        os.rename(self.table + ".new", self.table)

    def door(self, tenant, name=None):
        command = f'command="{CLIENTS}/forkhost-door --route {self.table} {tenant}",restrict ssh-ed25519 AAAA x'
        return StandIn(self.world, name or tenant, command)

    def user(self, tenant, name):
        return User(self.door(tenant, name), b"nobody")

    def end(self):
        self.first.ends_well(self.checks, "the first host")
        self.second.ends_well(self.checks, "the second host")


def show_doors(checks, program, folder):
    """A door reaches the host of its tenant, asks it as this tenant alone, and follows the table from frame to frame."""
    routed = Routed(checks, program, folder)
    alice, bob = routed.user("alice", "a"), routed.user("bob", "b")
    checks.same("alice is on the first", quota(1_000_000), alice.told(QUOTA))
    checks.same("bob is on the second", quota(2_000_000), bob.told(frame(b"bob", b"quota\n")))
    for who, user in ((b"bob", alice), (b"alice", bob), (b"@host", alice)):
        checks.same(f"{who} is nobody at another door", NOBODY, user.told(frame(who, b"quota\n")))
    checks.same("a tenant in no line", NOBODY, routed.user("carol", "c").told(frame(b"carol", b"quota\n")))
    show_changed(routed, alice, bob)
    show_wrong(routed)
    show_uploads(routed)
    for user in (alice, bob):
        checks.same("a door ends", (b"", 0, b""), user.end())
    routed.end()


def show_changed(routed, alice, bob):
    """The table is replaced, and written in place, while doors are open."""
    checks, asks = routed.checks, frame(b"bob", b"quota\n")
    routed.write(f"alice {routed.first.socket}\n")
    checks.same("bob is taken out", NOBODY, bob.told(asks))
    checks.same("alice stays", quota(1_000_000), alice.told(QUOTA))
    routed.write(f"alice {routed.first.socket}\nbob {routed.first.socket}\n")
    checks.same("a host that has no bob says so", NOBODY, bob.told(asks))
    with open(routed.table, "w", encoding="utf-8") as file:
        file.write(f"bob {routed.second.socket}\nalice {routed.first.socket}\n")
    checks.same("bob is back", quota(2_000_000), bob.told(asks))


def show_wrong(routed):
    """A line that is wrong spoils the table for all, and the user is told no path. Mended, it serves again."""
    checks, right = routed.checks, f"alice {routed.first.socket}\nbob {routed.second.socket}\n"
    wrong = {"no socket": "bob\n", "a line twice": "alice /x\n", "no tenant": "Bob /x\n", "the operator": "@host /x\n", "no path": "carol x\n"}
    for at, (label, line) in enumerate(wrong.items()):
        routed.write(right + line)
        user = routed.user("alice", f"wrong{at}")
        user.send(QUOTA)
        checks.same(f"a wrong line: {label}", (b"", 2, f"forkhost-door: {DOWN}\n".encode()), user.end())
    os.remove(routed.table)
    user = routed.user("alice", "none")
    user.send(QUOTA)
    checks.same("no table", (b"", 2, f"forkhost-door: {DOWN}\n".encode()), user.end())
    routed.write(right)
    checks.same("a right one", quota(1_000_000), routed.user("alice", "mended").told(QUOTA))
    for words in (["--route", routed.table], ["--route", routed.table, "@host"], ["--route", routed.table, "alice", "x"]):
        ran = routed.world.ran("forkhost-door", *words)
        checks.same(f"not a door: {words[2:]}", (2, True), (ran.status, b"usage: forkhost-door" in ran.fault))


def show_uploads(routed):
    """Uploads of a tenant take turns at its host. One that is open when its tenant goes to another host holds up nobody there."""
    checks = routed.checks
    part, end, drop = frame(b"alice", b"part\n"), frame(b"alice", b"part-end r\n"), frame(b"alice", b"part-drop\n")
    routed.world.init("alice", "r")
    first, second = routed.user("alice", "one"), routed.user("alice", "two")
    checks.same("an upload is open", framed(b"ok\n"), first.told(part))
    second.send(part)
    checks.same("another one waits", [], select.select([second.stream], [], [], 0.3)[0])
    routed.write(f"alice {routed.second.socket}\nbob {routed.second.socket}\n")
    checks.same("alice is elsewhere, and not there", NOBODY, first.told(end))
    checks.same("the other one is next where it asked", framed(b"ok\n"), second.reply())
    routed.write(f"alice {routed.first.socket}\nbob {routed.second.socket}\n")
    checks.same("and ends it there", framed(b"ok\n"), second.told(drop))
    for user in (first, second):
        checks.same("a door ends", (b"", 0, b""), user.end())


class Shell:
    """`forkhost-shell` as sshd runs it, over a table in its settings."""

    def __init__(self, routed):
        self.world = routed.world
        self.write(f"route {routed.table}\ncaches {self.world.path('caches')}\nlog {self.world.path('log')}\n")
        script = self.world.path("near")
        with open(script, "w", encoding="utf-8") as file:
            file.write('#!/bin/sh\nshift $(($# - 2))\nSSH_ORIGINAL_COMMAND="$2" ')
            file.write(f'exec {CLIENTS}/forkhost-shell --settings {self.world.path("front")} "$1"\n')
        os.chmod(script, 0o700)
        self.world.environment |= {"GIT_SSH_COMMAND": script, "GIT_SSH_VARIANT": "ssh"}

    def write(self, text):
        with open(self.world.path("front"), "w", encoding="utf-8") as file:
            file.write(text)

    def ran(self, tenant, *words):
        more = {"SSH_ORIGINAL_COMMAND": " ".join(words)}
        return self.world.ran("forkhost-shell", "--settings", self.world.path("front"), tenant, more=more)

    def logged(self):
        with open(self.world.path("log"), encoding="utf-8") as file:
            return file.read()


def show_front(checks, program, folder):
    """Git and requests by hand through one front end, as tenants of two hosts; and what it says without a host."""
    routed = Routed(checks, program, folder)
    shell, world = Shell(routed), routed.world
    line(world, world.repository("source"), "one", "two")
    for tenant in GRANTS:
        checks.same(f"{tenant} makes a repository", done(), shell.ran(tenant, "init", "r"))
        world.succeeds(f"{tenant} pushes", world.git("source", "push", "-q", f"ssh://{tenant}/r.git", "main"))
        world.succeeds(f"{tenant} clones", world.git(None, "clone", "-q", f"ssh://{tenant}/r.git", tenant))
        world.sound(f"the clone of {tenant}", tenant)
    shown = [world.ran("forkhost-ask", host.socket, tenant, "repos") for host, tenant in zip((routed.first, routed.second), GRANTS)]
    checks.same("each is on its own host", [done(b"r\n")] * 2, shown)
    checks.same("by hand: nobody", Ran(1, b"", b"forkhost: unknown-tenant\n"), shell.ran("carol", "quota"))
    said = Ran(128, b"", b"forkhost: the host has no tenant 'carol'\n")
    checks.same("Git: nobody", said, shell.ran("carol", FETCH, "'r'"))
    routed.write(f"alice {routed.first.socket}\nwrong\n")
    checks.same("a wrong line", Ran(128, b"", f"forkhost: {DOWN}\n".encode()), shell.ran("alice", "quota"))
    checks.same("the log has it", True, f"line 2 of '{routed.table}' is not a name and a value" in shell.logged())
    for text in ("caches /x\n", "socket /x\nroute /y\ncaches /x\n"):
        shell.write(text)
        ran = shell.ran("alice", "quota")
        checks.same(f"settings: {text!r}", (128, True), (ran.status, b"does not set one of socket and route" in ran.fault))
    routed.end()
