"""The log: one line a request, and one for what becomes of a cache. It never has an object's content."""
import os
import time

from forkhost_client.faults import Fatal, Internal
from forkhost_client.system_log import tell_system

# What stands if there is nothing to tell.
NOTHING = "-"


def now() -> str:
    return time.strftime("%Y-%m-%dT%H:%M:%SZ", time.gmtime())


class Log:
    """Lines at the end of a file, each written at once; nothing where no file is set."""

    def __init__(self, path: str):
        self.path = path

    def line(self, *words: object) -> None:
        text = " ".join([now(), *(str(word) or NOTHING for word in words)])
        if self.path:
            try:
                self.write(text.encode("utf-8", "backslashreplace").replace(b"\n", b" ") + b"\n")
            except OSError as fault:
                tell_system(f"cannot write the log '{self.path}': {fault.strerror or fault}")

    def shown(self, fault: Fatal, tenant: str, repository: str) -> str:
        """What a user is told of a fault. They are elsewhere, so what names places of this machine stands here alone."""
        if not isinstance(fault, Internal):
            return str(fault)
        self.line(tenant, "fault", repository, str(fault))
        return fault.shown

    def failed(self, fault: OSError, tenant: str, repository: str) -> str:
        """The same of a call of the system that failed: the log alone has its path."""
        reason = fault.strerror or str(fault)
        self.line(tenant, "fault", repository, str(fault))
        return f"the front end failed: {reason}"

    def write(self, line: bytes) -> None:
        file = os.open(self.path, os.O_WRONLY | os.O_APPEND | os.O_CREAT, 0o600)
        try:
            os.write(file, line)
        finally:
            os.close(file)


class Entry:
    """One request, from its beginning: who asks, for what, of which repository, how it ended, and what it cost."""

    def __init__(self, log: Log, tenant: str):
        self.log, self.tenant, self.begun = log, tenant, time.monotonic()
        self.word = self.repository = NOTHING
        self.reply, self.bytes = "failed", 0

    def write(self) -> None:
        took = int((time.monotonic() - self.begun) * 1000)
        self.log.line(self.tenant, self.word, self.repository, self.reply, self.bytes, took)
