"""A fetch: what Git wants, in few requests, in one pack."""
from .listing import Listing
from .negotiation import MAX_EXCLUDED, MAX_ITEMS, common
from .options import Options
from .pack import Pack
from .progress import Progress
from .remote import Remote
from .repository import Repository


class Fetch:
    """What is wanted of one repository, over one connection, into a pack. Git is asked before the host is held."""

    def __init__(self, repository: Repository, listing: Listing, options: Options, pack: Pack, wanted: list):
        self.repository, self.pack = repository, pack
        self.listing, self.options = listing, options
        self.history = repository.history() if self.is_whole(wanted) else {}
        self.targets = [name for name in self.ends(wanted) if name not in self.history]
        self.tips = repository.tips() if self.history and self.targets else []

    def is_whole(self, wanted: list) -> bool:
        """Whether there is a history here, and all that it leads to is here, or need not be.

        Not so in a clone, nor where it was cut short; and not where objects are elsewhere, and one of them is wanted by
        its name."""
        if self.options.cloning or self.options.refetch or self.repository.is_shallow():
            return False
        return set(self.listing.refs.values()).issuperset(wanted) or not self.repository.is_partial()

    def carry_out(self, remote: Remote) -> None:
        commits = [name for name in self.targets if self.listing.kind(name) == "commit"]
        known = common(remote, self.history, self.tips, set(self.listing.refs.values()), commits)
        self.receive(remote, known)
        if self.options.followtags:
            self.follow_tags()

    def ends(self, wanted: list) -> list:
        """What the wanted names lead to; tags between are here already, and need not be asked for.

        HEAD is the first, since most other tips stand in its history; then come commits, then all else."""
        first, found = self.listing.default(), []
        for name in wanted:
            self.add_chain(name)
            found.append(self.listing.peeled(name).name)
        return sorted(dict.fromkeys(found), key=lambda name: (name != first, self.listing.kind(name) != "commit"))

    def add_chain(self, name: str) -> None:
        for tag in self.listing.chain(name):
            self.pack.add(tag)

    def receive(self, remote: Remote, known: list) -> None:
        """All that the targets lead to, less what the known ones do. The first one is asked for alone."""
        wanted, room = self.targets, 1
        while wanted:
            group = wanted[:room]
            for record in remote.reached(group, known):
                self.pack.add(record)
            known = (known + group)[:MAX_EXCLUDED]
            wanted = [name for name in wanted[room:] if name not in self.pack.names]
            room = MAX_ITEMS - len(known)

    def follow_tags(self) -> None:
        """Tags of what has come, as Git's own servers send them along."""
        for name in self.listing.refs.values():
            if name in self.listing.tags and self.listing.peeled(name).name in self.pack.names:
                self.add_chain(name)


def fetch(repository: Repository, connect, listing: Listing, wanted: list, options: Options) -> "str | None":
    """Brings what the wanted names lead to into the repository; the path of the file that holds its pack, if any."""
    with Pack(repository, Progress("Receiving objects", options.progress)) as pack:
        work = Fetch(repository, listing, options, pack, wanted)
        with connect() as remote:
            work.carry_out(remote)
        return pack.keep(options.cloning)
