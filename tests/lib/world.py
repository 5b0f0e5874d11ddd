"""A host that serves, tenants' work folders, and Git as a person runs it, all in one folder of a test."""
import os
import shutil
import signal
import socket
import struct
import subprocess

from forkhost_client.connection import Connection
from forkhost_client.faults import Fatal, Refused
from lib.places import CLIENTS
from lib.live import Serving
from lib.program import PATIENCE, Ran, done, ended, sound

CONNECTIONS = 2000
WHO = {"NAME": "Ada", "EMAIL": "ada@example.org", "DATE": "1700000000 +0100"}
SETTINGS = {"gc.auto": "0", "maintenance.auto": "false", "advice.detachedHead": "false", "init.defaultBranch": "main"}
# Tests write great objects of random bytes, which no compression makes smaller.
SETTINGS |= {"core.compression": "0"}
# How long a reply may take, as the kernel has it.
WAIT = struct.pack("ll", PATIENCE, 0)
UNBORN = b"notice: HEAD points to an unborn branch (main)\n"


def environment(home):
    """All that Git looks at, and nothing of whoever runs the test."""
    settings = {"GIT_CONFIG_COUNT": str(len(SETTINGS))}
    for at, (name, value) in enumerate(SETTINGS.items()):
        settings |= {f"GIT_CONFIG_KEY_{at}": name, f"GIT_CONFIG_VALUE_{at}": value}
    people = {f"GIT_{role}_{part}": text for role in ("AUTHOR", "COMMITTER") for part, text in WHO.items()}
    fixed = {"GIT_CONFIG_GLOBAL": os.devnull, "GIT_CONFIG_NOSYSTEM": "1", "GIT_TERMINAL_PROMPT": "0", "LC_ALL": "C"}
    path = os.pathsep.join([CLIENTS, os.environ["PATH"]])
    return {**settings, **people, **fixed, "HOME": home, "TMPDIR": home, "PATH": path, "PYTHONDONTWRITEBYTECODE": "1"}


def finished(child, given=b""):
    """How a command ends, and all that it began; one that does not end is killed with them."""
    try:
        output, fault = child.communicate(given, timeout=PATIENCE)
    except subprocess.TimeoutExpired:
        return killed(child)
    return Ran(child.returncode, output, fault)


def killed(child):
    """Ends a command and all that it began, at once."""
    os.killpg(child.pid, signal.SIGKILL)
    output, fault = child.communicate()
    return Ran(child.returncode, output, fault)


class Host:
    """`forkhost serve` over a folder, ended in the right way and begun again."""

    def __init__(self, program, folder, *tenants):
        self.program, self.folder = program, os.path.join(folder, "host")
        self.socket, self.serving = os.path.join(folder, "socket"), None
        self.begin(*tenants)

    def begin(self, *tenants):
        self.serving = Serving(self.program, self.socket, CONNECTIONS, "--dir", self.folder, *tenants)

    def end(self):
        """Uses up the connections that are left; how the process ends, which saves the state."""
        while self.serving.child.poll() is None:
            try:
                with socket.socket(socket.AF_UNIX) as stream:
                    stream.settimeout(PATIENCE)
                    stream.connect(self.socket)
            except OSError:
                break
        return ended(self.serving.child)

    def ends_well(self, checks, label):
        checks.same(f"{label}: the host's end", done(), self.end())
        checks.same(f"{label}: its folder", sound(), self.program.checked(self.folder))

    def kill(self):
        self.serving.child.kill()
        self.serving.child.wait()

    def url(self, tenant, repository):
        return f"forkhost::{self.socket}/{tenant}/{repository}"


class World:
    """A folder, the host in it, and whoever works there."""

    def __init__(self, checks, program, folder, *tenants):
        self.checks, self.folder = checks, os.path.realpath(folder)
        self.environment = environment(self.folder)
        self.host = Host(program, self.folder, *(tenants or ["alice=1000000000"]))

    def path(self, *names):
        return os.path.join(self.folder, *names)

    def ran(self, *words, at=None, given=b"", more=None):
        """A command, run in the folder or in one below it."""
        return finished(self.begun(*words, at=at, more=more), given)

    def begun(self, *words, at=None, more=None):
        """A command that runs."""
        pipes = dict.fromkeys(["stdin", "stdout", "stderr"], subprocess.PIPE)
        where, outer = self.path(at or ""), {**self.environment, **(more or {})}
        return subprocess.Popen(words, cwd=where, env=outer, start_new_session=True, **pipes)

    def git(self, at, *words, given=b"", more=None):
        return self.ran("git", *words, at=at, given=given, more=more)

    def output(self, at, *words, given=b"", more=None):
        """What a command of Git prints that has to succeed, as text without the last line feed."""
        ran = self.git(at, *words, given=given, more=more)
        if ran.status:
            raise ValueError(f"git {' '.join(words)}: {ran}")
        return ran.output.decode("utf-8", "surrogateescape").rstrip("\n")

    def name(self, at, revision):
        """The name of an object by a revision."""
        return self.output(at, "rev-parse", revision)

    def succeeds(self, label, ran):
        """One check: a command ended with status 0; what it said."""
        self.checks.same(label, 0, ran.status if ran.status == 0 else ran)
        return ran

    def ask(self, tenant, *words, given=b""):
        """One request, without a program between; it ends as `forkhost-ask` does."""
        try:
            with Connection(self.host.socket, tenant) as connection:
                connection.stream.setsockopt(socket.SOL_SOCKET, socket.SO_RCVTIMEO, WAIT)
                return done(connection.ask(" ".join(words), given).rest())
        except Refused as refusal:
            return Ran(1, b"", f"forkhost-ask: {refusal}\n".encode())
        except Fatal as fault:
            raise ValueError(f"{tenant} asks {words}: {fault}") from fault

    def init(self, tenant, *repositories):
        for repository in repositories:
            self.checks.same(f"{tenant} makes {repository}", Ran(0, b"", b""), self.ask(tenant, "init", repository))

    def url(self, repository, tenant="alice"):
        return self.host.url(tenant, repository)

    def repository(self, name, *words):
        """An empty repository of the SHA-256 format."""
        self.output(None, "init", "-q", "--object-format=sha256", *words, name)
        return name

    def remove(self, name):
        shutil.rmtree(self.path(name), ignore_errors=True)

    def references(self, at):
        return self.output(at, "for-each-ref", "--format=%(objectname) %(refname)").splitlines()

    def reached(self, at):
        """The names of all objects that references lead to."""
        listed = self.output(at, "rev-list", "--objects", "--no-object-names", "--all")
        return sorted(listed.splitlines())

    def objects(self, at):
        """The names of all objects that are there."""
        words = ["cat-file", "--batch-all-objects", "--unordered", "--batch-check=%(objectname)"]
        return sorted(self.output(at, *words).splitlines())

    def kept(self, repository, tenant="alice"):
        """The references that the host shows, as rows of a list."""
        told = self.ask(tenant, "for-each-ref", repository)
        rows = [row.split("\t") for row in told.output.decode("utf-8", "surrogateescape").splitlines()]
        return [f"{target.split(' ')[0]} {ref}" for target, ref in rows] if told.status == 0 else told

    def sound(self, label, at):
        """One check: Git finds nothing wrong with a repository, and nothing is left over in it."""
        ran = self.git(at, "fsck", "--strict", "--full", "--no-dangling", "--no-progress")
        self.checks.same(f"{label}: fsck", done(), ran._replace(fault=ran.fault.replace(UNBORN, b"")))
        folder = self.path(at, self.output(at, "rev-parse", "--git-path", "objects"))
        names = [name for _, _, names in os.walk(folder) for name in names]
        left = [name for name in names if name.startswith("tmp") or name.endswith(".keep")]
        self.checks.same(f"{label}: nothing is left over", [], left)

    def cloned(self, label, repository, *words, tenant="alice", name="copy"):
        """A clone, sound."""
        self.remove(name)
        self.succeeds(label, self.git(None, "clone", "-q", *words, self.url(repository, tenant), name))
        self.sound(label, name)
        return name

    def same_mirror(self, label, source, repository, tenant="alice"):
        """A mirror of what the host has is as the source: its references, and the objects that they lead to."""
        copy = self.cloned(f"{label}: a mirror", repository, "--mirror", tenant=tenant, name="mirror")
        self.checks.same(f"{label}: references", self.references(source), self.references(copy))
        self.checks.same(f"{label}: objects", self.reached(source), self.objects(copy))
