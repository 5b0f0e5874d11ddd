"""A machine: a network of its own, the file system, mounted, and hosts."""
import os
import subprocess
import time

from lib.frames import frame
from lib.live import Serving
from lib.program import Program
from lib.waiting import until
from machines.box import DATA
from machines.network import inside

# A start waits while the file system finds out whether another machine still lives.
LONGEST = 180


class Machine(Program):
    """A machine of this name. The program runs in its network, over folders of its mount."""

    def __init__(self, name, path):
        super().__init__(path)
        self.name, self.mount, self.client = name, f"/mnt/{name}", None
        os.makedirs(self.mount, exist_ok=True)
        self.boot()

    def given(self, *words):
        return inside(self.name, *super().given(*words))

    def boot(self):
        """Mounts the file system. Where an earlier client was given up, its mount goes first."""
        if self.client:
            self.client.kill()
            self.client.wait()
            subprocess.run(["umount", "-l", self.mount], check=False)
        with open(os.path.join(DATA, f"client.{self.name}.out"), "ab") as out:
            words = ["ceph-fuse", "-f", "-n", "client.admin", "--client_mount_timeout=60", self.mount]
            self.client = subprocess.Popen(inside(self.name, *words), stdout=out, stderr=out)
        until(lambda: is_mounted(self.mount), 90)

    def folder(self, name):
        return os.path.join(self.mount, name)

    def took_over(self, folder):
        """A host over a folder that another machine had: it is started, as a supervisor does, until it serves."""
        end = time.monotonic() + LONGEST
        while time.monotonic() < end:
            host = Host(self, folder)
            if host.child.poll() is None:
                return host
            host.child.communicate()
            time.sleep(0.5)
        raise OSError(f"{self.name} does not take over")

    def lose(self, *hosts):
        """The machine loses its power: its hosts and its client of the file system are gone at one moment."""
        for child in (self.client, *(host.child for host in hosts)):
            child.kill()
        for host in hosts:
            host.child.communicate()


def is_mounted(path):
    with open("/proc/mounts", encoding="utf-8") as file:
        return any(line.split(" ")[1] == path and "ceph-fuse" in line for line in file)


class Host(Serving):
    """A host of a machine, which serves or has ended."""

    def __init__(self, machine, folder, *words):
        self.path = os.path.join(DATA, f"socket.{machine.name}")
        if os.path.lexists(self.path):
            os.remove(self.path)
        given = ["--socket", self.path, "--connections", "1000000", "--at-once", "8", "--dir", machine.folder(folder)]
        self.child = machine.begun("serve", *given, *words)
        until(lambda: self.inode() or self.child.poll() is not None, LONGEST)

    def asked(self, who, payload):
        """The one reply, or nothing if none comes."""
        told = self.told(frame(who, payload))
        return told.partition(b"\n")[2]
