"""One request of a tenant by hand, and what becomes of its caches by it."""
from forkhost_client.connection import Connection

from .asked import Asked
from .cache import waiting
from .caches import places_of, remove
from .log import Entry
from .settings import Settings

PIECE = 1 << 16


def ask(settings: Settings, asked: Asked, entry: Entry, sink) -> None:
    """The data of the reply goes to the sink."""
    with Connection(settings.socket_of(entry.tenant), entry.tenant, waiting) as connection:
        data = connection.ask(" ".join([asked.word, *asked.rest]))
        while data.left:
            piece = data.read(min(data.left, PIECE))
            sink.write(piece)
            entry.bytes += len(piece)
    sink.flush()
    forget(settings, asked, entry.tenant)


def forget(settings: Settings, asked: Asked, tenant: str) -> None:
    """What is dropped has no cache any more, and what is made has none yet; what was pruned may be in any."""
    changed = asked.rest[0] if asked.word == "drop" else asked.made()
    for place in places_of(settings, tenant):
        if asked.word == "prune" or place.name == changed:
            remove(settings, place, asked.word)
