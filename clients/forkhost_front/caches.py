"""All caches of a front end: together they have a bound in bytes, and those that were used least recently go."""
import os

from forkhost_client.address import is_tenant
from forkhost_client.faults import Fatal

from . import seal
from .cache import Cache
from .settings import Settings

USED = ".use"


class Place:
    def __init__(self, used: int, tenant: str, name: str):
        """When it was used last, in nanoseconds since 1970; the tenant and the repository."""
        self.used, self.tenant, self.name = used, tenant, name


def places(settings: Settings):
    """Nothing else in the folder is looked at: a file system of its own has a folder that only root may read."""
    for tenant in os.scandir(settings.caches):
        if is_tenant(tenant.name) and tenant.is_dir():
            yield from places_of(settings, tenant.name)


def places_of(settings: Settings, tenant: str):
    folder = os.path.join(settings.caches, tenant)
    for entry in os.scandir(folder) if os.path.isdir(folder) else ():
        if entry.name.endswith(USED):
            yield Place(entry.stat().st_mtime_ns, tenant, entry.name[: -len(USED)])


def size(settings: Settings, place: Place) -> int:
    return seal.size(os.path.join(settings.caches, place.tenant, place.name))


def remove(settings: Settings, place: Place, why: str) -> bool:
    """Whether it is gone; one that somebody uses stays."""
    cache = Cache(settings, place.tenant, place.name)
    is_gone = cache.try_remove()
    if is_gone:
        cache.tell("removed", why)
    return is_gone


def make_room(settings: Settings, cache: Cache) -> None:
    """Removes what was used least recently. Where that fails, the request of this cache was served all the same."""
    try:
        keep_within(settings)
    except (Fatal, OSError) as fault:
        cache.tell("no-room", str(fault))


def keep_within(settings: Settings) -> None:
    """Until the rest keeps within the bound."""
    found = sorted(places(settings), key=lambda place: place.used)
    sizes = {place: size(settings, place) for place in found}
    total = sum(sizes.values())
    for place in found:
        if total <= settings.bytes:
            return
        if remove(settings, place, f"all caches have {total} bytes, of {settings.bytes}"):
            total -= sizes[place]
