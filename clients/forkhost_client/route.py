"""A table of tenants: at which socket the host of each of them is, by lines `TENANT SOCKET`.

It stands before the door and the front ends, so what it says is trusted. A wrong line spoils all of it, since whoever looks
for one tenant cannot tell what the line was meant to say."""
import os

from .address import is_tenant
from .faults import Fatal, Internal
from .rows import rows

SHOWN = "the host cannot be reached"


def read_table(path: str) -> dict:
    """The socket of each tenant."""
    try:
        found = rows(path)
        for tenant, socket in found.items():
            if not is_tenant(tenant) or not socket.startswith("/"):
                raise Fatal(f"'{path}' has '{tenant} {socket}', which is not a tenant and an absolute path")
        return found
    except Fatal as fault:
        raise Internal(str(fault), SHOWN) from fault


def seen(path: str) -> "tuple | None":
    """What changes when another table is put at this path, or this one is written."""
    try:
        found = os.stat(path)
    except OSError:
        return None
    return found.st_dev, found.st_ino, found.st_size, found.st_mtime_ns, found.st_ctime_ns


class Route:
    """A table, which is read again once it has changed."""

    def __init__(self, path: str):
        self.path, self.seen, self.sockets = path, None, {}

    def socket_of(self, tenant: str) -> "str | None":
        """The socket of the tenant's host; None if no line has the tenant."""
        now = seen(self.path)
        if not now or now != self.seen:
            self.sockets, self.seen = read_table(self.path), now
        return self.sockets.get(tenant)
