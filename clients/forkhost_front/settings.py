"""What whoever runs a front end has set: lines `NAME VALUE` of a file."""
import os

from forkhost_client.faults import Fatal, Refused
from forkhost_client.route import Route
from forkhost_client.rows import rows

PLACE = "/etc/forkhost/front"
# One of these says where a tenant's host is.
PLACES = ("socket", "route")
# Bytes of all caches together, where nothing is set.
BYTES = "10000000000"
OPTIONAL = {"socket": "", "route": "", "log": "", "users": "", "bytes": BYTES}
# Git runs the hook of a push in the cache, so none of these is looked for from where the front end began.
PATHS = ("socket", "route", "caches", "log", "users")


class Settings:
    def __init__(self, place: str, values: dict):
        """Where they were read, and what stood there."""
        self.place = place
        # The host's socket, or the table that has those of many hosts; and the folder of the caches.
        self.socket, self.route, self.caches = values["socket"], Route(values["route"]), values["caches"]
        # The file of the log, or nothing if there is none; and that which gives users of a web server their tenants.
        self.log, self.users = values["log"], values["users"]
        # This many bytes all caches have at the most.
        self.bytes = int(values["bytes"])

    def socket_of(self, tenant: str) -> str:
        """That of the tenant's host. If the table has no such tenant, it is refused as a host would."""
        found = self.socket or self.route.socket_of(tenant)
        if not found:
            raise Refused("unknown-tenant")
        return found


def read_settings(path: str) -> Settings:
    found = rows(path)
    if "caches" not in found:
        raise Fatal(f"'{path}' does not set caches")
    if sum(name in found for name in PLACES) != 1:
        raise Fatal(f"'{path}' does not set one of socket and route")
    for name in found:
        if name not in ("caches", *OPTIONAL):
            raise Fatal(f"'{path}' sets {name}, which is unknown")
        if name in PATHS and not found[name].startswith("/"):
            raise Fatal(f"'{path}' sets {name} to a path that does not begin with '/'")
    values = {**OPTIONAL, **found}
    # Git takes 0 for no bound.
    if not values["bytes"].isdecimal() or not int(values["bytes"]):
        raise Fatal(f"'{path}' sets bytes to a value that is not a number above 0")
    return Settings(os.path.abspath(path), values)
