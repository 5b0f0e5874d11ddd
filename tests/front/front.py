"""A host with a front end before it: its settings, its caches and its log, in the folder of a test."""
import os
import socket
import subprocess

from lib.waiting import until
from lib.world import CLIENTS, World

TENANTS = ["alice=1000000000", "bob=1000000", "carol=20000"]
BYTES = 1_000_000_000


def free_port():
    with socket.socket() as stream:
        stream.bind(("127.0.0.1", 0))
        return stream.getsockname()[1]


class FrontWorld(World):
    """A server of Debian's runs on loopback until the `with` statement ends."""

    def __init__(self, checks, program, folder, tenants=TENANTS, bound=BYTES):
        super().__init__(checks, program, folder, *tenants)
        self.names = [tenant.partition("=")[0] for tenant in tenants]
        self.caches, self.port = self.path("caches"), free_port()
        self.set(bound)
        self.server = subprocess.Popen(self.command(), stdin=subprocess.DEVNULL, stderr=subprocess.PIPE)
        self.wait()

    def set(self, bound, socket=None):
        """New settings; `socket` is one in front of the host's."""
        rows = {"socket": socket or self.host.socket, "caches": self.caches}
        rows |= {name: self.path(name) for name in ("log", "users")}
        self.write("front", "".join(f"{name} {value}\n" for name, value in rows.items()) + f"bytes {bound}\n")

    def write(self, name, text):
        with open(self.path(name), "w", encoding="utf-8") as file:
            file.write(text)
        os.chmod(self.path(name), 0o600)

    def wait(self):
        """The server listens."""
        if not until(lambda: self.listens() or self.server.poll() is not None) or self.server.poll() is not None:
            raise ValueError(f"the server does not listen: {self.server.stderr.read1(1000)}")

    def listens(self):
        try:
            socket.create_connection(("127.0.0.1", self.port), timeout=1).close()
            return True
        except OSError:
            return False

    def __enter__(self):
        return self

    def __exit__(self, *_):
        self.server.terminate()
        self.server.communicate()

    def apart(self):
        """From now on each command has a connection of its own, as it has anyway."""

    def by_hand(self, tenant, *words):
        """One request of a tenant, by the front end where it has words for hand."""
        return self.ask(tenant, *words)

    def cache(self, repository="r", tenant="alice"):
        return os.path.join(self.caches, tenant, repository)

    def shell(self):
        return os.path.join(CLIENTS, "forkhost-shell")

    def logged(self):
        """The words of the log's lines since the last look, without the time."""
        path = self.path("log")
        if not os.path.exists(path):
            return []
        with open(path, encoding="utf-8") as file:
            rows = [line.split()[1:] for line in file]
        os.remove(path)
        return rows

    def in_cache(self, repository="r", tenant="alice"):
        """The names of all objects that a cache has."""
        return self.objects(self.cache(repository, tenant))

    def same_clone(self, label, source="source", repository="r", tenant="alice"):
        """A mirror by the front end is as the source; the cache has its objects, and no others."""
        self.same_mirror(label, source, repository, tenant)
        self.checks.same(f"{label}: the cache", self.reached(source), self.in_cache(repository, tenant))
