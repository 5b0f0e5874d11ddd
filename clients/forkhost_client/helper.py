"""The remote helper: Git's lines in, and what Git is told (gitremote-helpers(7))."""
from .address import Address
from .connection import Connection
from .faults import Fatal, Refused
from .frames import bytes_of, text_of
from .listing import Listing, read_listing
from .options import Options
from .progress import say
from .remote import Remote

CAPABILITIES = ["fetch", "push", "option", "object-format"]
FORMAT = "sha256"
AUTOCREATE = "forkhost.autocreate"
EMPTY = (
    "the repository is empty, so Git makes a clone of it in the SHA-1 format, which cannot push to it; "
    "clone by 'GIT_DEFAULT_HASH=sha256 git clone ..', or push from a repository made by 'git init --object-format=sha256'"
)


class Helper:
    """What a fetch and a push want is read when they are asked for: most calls are for a list alone."""

    def __init__(self, address: Address):
        self.address, self.place = address, None
        self.options = Options(self.warn)
        self.listing = None
        # Whether the repository is to be made by a push.
        self.is_wanting = False

    @property
    def repository(self):
        """That in which Git runs the helper."""
        if not self.place:
            import os

            from .repository import Repository

            self.place = Repository(os.environ)
        return self.place

    def warn(self, text: str) -> None:
        if self.options.verbosity > 0:
            say(text)

    def connect(self) -> Remote:
        """A connection for one batch."""
        on_wait = lambda: self.warn("waiting: the host is serving another connection")
        return Remote(Connection(self.address.socket, self.address.tenant, on_wait), self.address.repository)

    def serve(self, source, sink) -> None:
        """Answers Git's lines to their end, or to an empty one between batches."""
        for line in iter(lambda: read_line(source), ""):
            for row in self.answer(line, source):
                sink.write(bytes_of(row) + b"\n")
            sink.flush()

    def answer(self, line: str, source):
        word = line.partition(" ")[0]
        if word == "option":
            return [self.options.answer(line)]
        if line == "capabilities":
            return [*CAPABILITIES, ""]
        if line in ("list", "list for-push"):
            return [*self.list(line == "list for-push"), ""]
        if word in ("fetch", "push"):
            batch = [line, *iter(lambda: read_line(source), "")]
            return [*(self.fetch(batch) if word == "fetch" else self.push(batch)), ""]
        raise Fatal(f"Git sent '{line}', which is unknown")

    def listed(self, for_push: bool) -> Listing:
        try:
            with self.connect() as remote:
                return read_listing(remote, for_push)
        except Refused as refusal:
            is_missing = refusal.word == "no-repository"
            if is_missing and for_push and self.repository.setting(AUTOCREATE, kind="bool") == "true":
                self.is_wanting = True
                return Listing({}, {})
            hint = f"; '{self.address.init()}' makes it" if is_missing else ""
            raise Fatal(self.told(refusal) + hint) from refusal

    def told(self, refusal: Refused) -> str:
        from .words import told

        return told(refusal, self.address)

    def make(self, remote: Remote) -> None:
        """The repository, which another client may have made meanwhile."""
        try:
            remote.change(f"init {self.address.repository}")
            self.warn(f"made repository '{self.address.repository}' of tenant '{self.address.tenant}'")
        except Refused as refusal:
            if refusal.word == "too-many":
                text = f"tenant '{self.address.tenant}' has as many repositories as a tenant may have"
                raise Fatal(text) from refusal
            if refusal.word != "repository-exists":
                raise Fatal(self.told(refusal)) from refusal

    def list(self, for_push: bool):
        if for_push:
            self.want_format()
        self.listing = self.listed(for_push)
        if not self.listing.refs and not for_push and self.repository.object_format() == "sha1":
            say(EMPTY)
        if self.options.object_format:
            yield f":object-format {FORMAT}"
        yield from self.listing.rows()

    def want_format(self) -> None:
        """A clone has its format only after the list, so it is looked at here."""
        found = self.repository.object_format()
        if found != FORMAT:
            raise Fatal(
                f"the object format of this repository is {found}, and the host's is {FORMAT}; "
                f"use one made by 'git init --object-format={FORMAT}' or by 'git clone'"
            )

    def fetch(self, batch: list):
        from .fetching import fetch

        self.want_format()
        wanted = [line.split(" ")[1] for line in batch]
        listing = self.listing or self.listed(False)
        try:
            kept = fetch(self.repository, self.connect, listing, wanted, self.options)
        except Refused as refusal:
            raise Fatal(self.told(refusal)) from refusal
        if kept:
            yield f"lock {kept}"

    def push(self, batch: list):
        from .pushing import Push, chosen
        from .updates import read_updates

        listing = self.listing or self.listed(True)
        updates = read_updates(batch, listing, self.options.leases, self.repository)
        good = chosen(updates, self.repository, self.options.atomic)
        if good:
            with self.connect() as remote:
                if self.is_wanting and not self.options.dry_run:
                    self.make(remote)
                Push(self.address, self.repository, remote, listing, self.options).carry_out(good)
        yield from (update.row() for update in updates)


def read_line(source) -> str:
    """A line of Git's without its end; nothing for an empty one, and at the end."""
    return text_of(source.readline()).rstrip("\n")
