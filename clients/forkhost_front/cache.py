"""A cache: a bare repository of Git's that has what one repository of one tenant has at the host, and nothing else."""
import os

from forkhost_client.address import Address
from forkhost_client.connection import Connection
from forkhost_client.faults import GitFailed, Refused
from forkhost_client.listing import Listing, read_listing
from forkhost_client.progress import say
from forkhost_client.remote import Remote
from forkhost_client.repository import Repository, lines

from . import seal
from .environment import environment
from .folders import own_folder
from .lock import Lock
from .log import Log
from .settings import Settings

DOUBT = "doubt"
NEW = ("--object-format=sha256", "--initial-branch=main", "--template=")
CONNECTED = ("rev-list", "--objects", "--quiet", "--stdin", "--not", "--all")
# More packs than this are made fewer.
MANY = 50
GONE = ("no-repository", "unknown-tenant")


def clear(folder: str, as_far_as_it_goes: bool = True) -> None:
    """Takes away a folder with all in it."""
    from shutil import rmtree

    rmtree(folder, ignore_errors=as_far_as_it_goes)


def waiting() -> None:
    say("waiting: the host is serving another connection")


class Cache:
    """It is changed under its lock alone, and not removed while somebody uses it."""

    def __init__(self, settings: Settings, tenant: str, name: str, lock: int = -1):
        """`lock` is the open file of the lock where another process has it."""
        self.settings, self.address = settings, Address(settings.socket, tenant, name)
        self.log = Log(settings.log)
        self.path = os.path.join(own_folder(os.path.join(own_folder(settings.caches), tenant)), name)
        self.lock, self.use = Lock(self.path + ".lock", lock), Lock(self.path + ".use")
        self.repository = Repository(environment(self.path, settings.bytes), quiet=True)
        # Held while the host is sent objects: a tenant has one upload.
        self.upload = os.path.join(os.path.dirname(self.path), ".upload")
        # Whether it has other files than it had.
        self.has_grown = False

    def connect(self) -> Remote:
        tenant = self.address.tenant
        return Remote(Connection(self.settings.socket_of(tenant), tenant, waiting), self.address.repository)

    def tell(self, reply: str, why: str = "") -> None:
        self.log.line(self.address.tenant, "cache", self.address.repository, reply, *([why] if why else []))

    def begin(self) -> None:
        """From now on it is used, until this process and those that it leaves the file to have ended."""
        self.use.shared()
        os.utime(self.use.path)

    def freshen(self) -> None:
        """Brings it up to date with the host. One that is spoiled is made again."""
        self.lock.exclusive()
        listing = self.listed()
        self.mend()
        try:
            self.follow(listing)
        except GitFailed as fault:
            self.make(str(fault))
            self.follow(listing)
        self.lock.release()

    def listed(self) -> Listing:
        """What the host shows. Where it shows no such repository, the cache goes."""
        try:
            with self.connect() as remote:
                listing = read_listing(remote, True)
                listing.head = remote.head()
                return listing
        except Refused as refusal:
            if refusal.word in GONE:
                self.remove()
            raise

    def mend(self) -> None:
        """What a request left that broke off goes; where something lacks or is in doubt, all is made again."""
        if not os.path.isdir(self.path):
            self.make("it is not a folder")
            return
        why = seal.why_spoiled(self.path)
        doubt = os.path.join(self.path, DOUBT)
        if not why and os.path.exists(doubt):
            why = "" if self.is_sound() else "Git found a fault in it"
            if not why:
                os.remove(doubt)
        if why:
            self.make(why)
        self.clear_quarantines()

    def is_sound(self) -> bool:
        """Whether all packs are whole, and all that references lead to is there."""
        folder = os.path.join(self.path, "objects", "pack")
        packs = [os.path.join(folder, name) for name in os.listdir(folder) if name.endswith(".idx")]
        looks = [["verify-pack", *packs]] if packs else []
        looks.append(["rev-list", "--objects", "--all", "--quiet"])
        return all(self.repository.answer(*words) is not None for words in looks)

    def clear_quarantines(self) -> None:
        """Nobody else uses the cache: what Git kept for clients that were killed goes."""
        folder = os.path.join(self.path, "objects")
        left = [name for name in os.listdir(folder) if name.startswith(seal.QUARANTINE)]
        if left and self.use.try_exclusive():
            for name in left:
                clear(os.path.join(folder, name))
        if left:
            self.use.shared()

    def make(self, why: str) -> None:
        """An empty one; where one was there, the log tells why it is made again."""
        if os.path.lexists(self.path):
            self.tell("made-anew", why)
            is_folder = os.path.isdir(self.path) and not os.path.islink(self.path)
            clear(self.path, False) if is_folder else os.remove(self.path)
        self.repository.output("init", "-q", "--bare", *NEW)
        seal.write(self.path)

    def doubt(self) -> None:
        """A program of Git's failed on it: Git looks at all of it before the next request."""
        if os.path.isdir(self.path):
            with open(os.path.join(self.path, DOUBT), "w", encoding="ascii"):
                pass

    def references(self) -> dict:
        rows = self.repository.output("for-each-ref", "--format=%(refname) %(objectname)").split("\n")
        return dict(row.split(" ") for row in rows[:-1])

    def follow(self, listing: Listing) -> None:
        """It has what the host lists; whoever reads it meanwhile loses nothing."""
        here = self.references()
        if here != listing.refs:
            self.bring(listing, here)
            self.set_references(here, listing.refs)
            self.end_change()
        self.set_head(listing.head)

    def bring(self, listing: Listing, here: dict) -> None:
        """The objects of names that no reference here has."""
        from forkhost_client.fetching import fetch
        from forkhost_client.options import Options

        known = set(here.values())
        wanted = [name for name in dict.fromkeys(listing.refs.values()) if name not in known]
        if wanted and not self.is_connected(wanted):
            fetch(self.repository, self.connect, listing, wanted, Options(lambda text: None))
            self.repository.output(*CONNECTED, given=lines(wanted))

    def is_connected(self, wanted: list) -> bool:
        return self.repository.answer(*CONNECTED, given=lines(wanted)) is not None

    def set_references(self, here: dict, wanted: dict) -> None:
        """Deletions first, so that a name makes room for one below it."""
        gone = [f"delete {ref}" for ref in here if ref not in wanted]
        come = [f"update {ref} {name}" for ref, name in wanted.items() if here.get(ref) != name]
        for rows in (gone, come):
            if rows:
                self.repository.output("update-ref", "--stdin", given=lines(rows))
        if len(gone) + len(come) > MANY:
            self.repository.output("pack-refs", "--all")

    def set_head(self, branch: "str | None") -> None:
        with open(os.path.join(self.path, "HEAD"), "rb") as file:
            is_set = file.read() == lines([f"ref: {branch}"])
        if not is_set:
            self.repository.output("symbolic-ref", "HEAD", branch)

    def end_change(self) -> None:
        """Nothing holds a pack any more, they are not many, and what is there belongs there."""
        folder = os.path.join(self.path, "objects", "pack")
        names = os.listdir(folder)
        for name in names:
            if name.endswith(".keep"):
                os.remove(os.path.join(folder, name))
        if sum(name.endswith(".pack") for name in names) > MANY:
            self.repository.output("repack", "-d", "-q", "--geometric=2")
            self.repository.output("pack-refs", "--all")
        seal.write(self.path)
        self.has_grown = True

    def take(self, names: list, before: set) -> None:
        """Of what a push brought, what these names lead to belongs there, and all else goes.

        What the names before lead to is there."""
        folder = os.path.join(self.path, "objects", "pack")
        given = lines(names) + lines("^" + name for name in before)
        words = ["pack-objects", "--revs", "--non-empty", "-q", "--window=0", "--delta-base-offset"]
        pack = self.repository.output(*words, os.path.join(folder, "pack"), given=given).strip() if names else ""
        belongs = seal.read(self.path) or {}
        for name in seal.files(self.path):
            if name not in belongs and not (pack and os.path.basename(name).startswith(f"pack-{pack}.")):
                os.remove(os.path.join(self.path, name))

    def remove(self) -> None:
        """It is gone, and so are its locks where nobody else uses it. Its lock is held."""
        clear(self.path)
        if self.use.try_exclusive():
            os.remove(self.use.path)
            os.remove(self.lock.path)

    def try_remove(self) -> bool:
        """Removes it where nobody uses it."""
        is_idle = self.use.try_exclusive() and self.lock.try_exclusive()
        if is_idle:
            self.remove()
        self.close()
        return is_idle

    def close(self) -> None:
        self.lock.close()
        self.use.close()
