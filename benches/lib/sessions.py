"""Sessions of `run` whose requests are timed, and whose process is looked at."""
import os
import re
import sys
import time

from lib.git import new
from lib.live import Live

LIMIT = 1_099_511_627_776
# The most bytes of an upload's part, less the word before them.
PART = 1_048_571
HOST = b"@host"
OK = b"ok\n"


def who(number):
    return b"t%02d" % number


def in_parts(body):
    """The payloads of a push of this body in parts, without its end."""
    return [b"part\n" + body[at : at + PART] for at in range(0, len(body), PART)]


class Session(Live):
    """A session of some tenants with a repository `r` each, in memory, or over a new folder in this one."""

    def __init__(self, program, tenants, work=None):
        self.folder = new(work, "kept") if work else None
        self.tenants = [who(number) for number in range(tenants)] if isinstance(tenants, int) else tenants
        kept = ["--dir", self.folder] if work else []
        super().__init__(program, *kept, *(f"{tenant.decode()}={LIMIT}" for tenant in self.tenants))
        for tenant in self.tenants:
            self.done(b"init r\n", tenant)
        self.floor = self.memory()

    def done(self, payload, asker=None):
        """The reply to a request of the first tenant's, or of who else asks, which is `ok`."""
        reply = self.asked(asker or self.tenants[0], payload)
        if not reply.startswith(OK):
            sys.exit(f"{payload[:60]!r} is told {reply[:100]!r}")
        return reply

    def timed(self, payload, asker=None):
        """Milliseconds from the request to its reply."""
        begun = time.perf_counter()
        self.done(payload, asker)
        return (time.perf_counter() - begun) * 1000

    def least(self, payload, asker=None, rounds=3):
        return min(self.timed(payload, asker) for _ in range(rounds))

    def pushed(self, parts, asker=None):
        """Milliseconds of a push in parts."""
        return sum(self.timed(part, asker) for part in [*parts, b"part-end r\n"])

    def worked(self):
        """Milliseconds that the host was on a processor, once it waits for the next request."""
        while True:
            with open(f"/proc/{self.child.pid}/stat", encoding="ascii") as file:
                if file.read().rsplit(")", 1)[1].split()[0] == "S":
                    break
        with open(f"/proc/{self.child.pid}/schedstat", encoding="ascii") as file:
            return int(file.read().split()[0]) / 1_000_000

    def memory(self, key="VmRSS"):
        with open(f"/proc/{self.child.pid}/status", encoding="ascii") as file:
            return int(re.search(rf"{key}:\s*(\d+) kB", file.read())[1]) * 1024

    def grown(self):
        return self.memory() - self.floor

    def peak(self):
        return self.memory("VmHWM")

    def stored(self):
        """The bytes of the objects' files."""
        homes = os.walk(os.path.join(self.folder, "objects"))
        return sum(os.path.getsize(os.path.join(home, name)) for home, _, names in homes for name in names)

    def end(self):
        """Milliseconds of its end."""
        begun = time.perf_counter()
        self.child.stdin.close()
        if self.child.wait():
            sys.exit("the session ended badly")
        return (time.perf_counter() - begun) * 1000

    def kill(self):
        self.child.kill()
        self.child.wait()
