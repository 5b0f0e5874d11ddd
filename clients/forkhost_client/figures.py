"""What a host tells of itself, and what its folder shows from outside."""
import os
import time

from .address import OPERATOR, is_tenant
from .connection import Connection
from .exposition import Gauge
from .faults import Fatal
from .forms import is_name, number

LONGEST_NUMBER = 20
# Of open uploads, beside the journal (docs/FORMATS.md, "Stored file and journal").
LOGS = "uploads.1", "uploads.2"
# A row of `tenants` is a name and these, in their order.
OF_TENANTS = {
    "used_bytes": "Bytes of use of the objects that the tenant sees.",
    "limit_bytes": "Bytes of use that the tenant may have.",
    "repositories": "Repositories of the tenant.",
    "references": "References of all repositories of the tenant.",
    "objects": "Objects that the tenant sees.",
    "upload_bytes": "Bytes of the open upload of the tenant.",
    "offers": "Offers that the tenant has made and that stand.",
}


def figures(rows: list, names: int, word: str) -> list:
    """The words of each row: a name where one belongs first, and numbers."""
    found = [row.split(" ") for row in rows]
    for words in found:
        digits = [number(text.encode(), LONGEST_NUMBER) for text in words[names:]]
        if len(words) == names or None in digits or not all(map(is_tenant, words[:names])):
            raise Fatal(f"the host's reply to {word} has an unknown form")
        words[names:] = digits
    return found


def rows(connection: Connection, word: str) -> list:
    *found, rest = connection.text(word).split("\n")
    if rest:
        raise Fatal(f"the host's reply to {word} has an unknown form")
    return found


def of_host(path: str) -> list:
    """What the host tells, in one connection."""
    with Connection(path, OPERATOR) as connection:
        tenants = figures(rows(connection, "tenants"), 1, "tenants")
        counts = figures(rows(connection, "census"), 0, "census")
    if any(len(words) != 1 + len(OF_TENANTS) for words in tenants) or [len(words) for words in counts] != [1]:
        raise Fatal("a reply of the host has more or fewer fields than are known")
    gauges = []
    for at, (name, about) in enumerate(OF_TENANTS.items(), 1):
        gauges.append(Gauge(f"forkhost_tenant_{name}", about, {words[0]: words[at] for words in tenants}))
    about = "Names of objects in the catalogue of the store, held or to be swept."
    return [*gauges, Gauge("forkhost_catalogued_objects", about, {"": counts[0][0]})]


def of_folder(folder: str) -> list:
    """Of the folder of a host, whose files are not opened."""
    age = time.time() - os.stat(os.path.join(folder, "state")).st_mtime
    journals = [entry.path for entry in os.scandir(os.path.join(folder, "journal")) if is_name(entry.name.removesuffix(".2"))]
    length = sum(map(length_of, [*journals, *(os.path.join(folder, name) for name in LOGS)]))
    return [
        Gauge("forkhost_state_age_seconds", "Seconds since the state was last written.", {"": max(0, round(age, 3))}),
        Gauge("forkhost_journal_bytes", "Bytes of the journal, with those of open uploads beside it.", {"": length}),
    ]


def length_of(path: str) -> int:
    """A journal goes when its state does, maybe at this moment; a log when no upload is open."""
    try:
        return os.stat(path).st_size
    except FileNotFoundError:
        return 0
