"""A repository of the host, over one connection: each request that the helper makes, by its name."""
from .connection import Connection
from .faults import Fatal, Lost, Refused
from .forms import is_name
from .frames import MAX_PAYLOAD
from .records import KINDS, Record, read_record, records

# What fits into one part of an upload.
MAX_PART = MAX_PAYLOAD - len("part\n")
BRANCHES = "refs/heads/"


def want(is_so: bool, word: str) -> None:
    """A reply has the form that it should have."""
    if not is_so:
        raise Fatal(f"the host's reply to {word} has an unknown form")


class Remote:
    def __init__(self, connection: Connection, name: str):
        self.connection, self.name = connection, name

    def __enter__(self) -> "Remote":
        return self

    def __exit__(self, *_) -> None:
        self.connection.close()

    def items(self, word: str, wanted: list, excluded: list) -> str:
        return " ".join([word, self.name, *wanted, *("^" + name for name in excluded)])

    def rows(self, line: str) -> list:
        """The lines of a reply."""
        *rows, rest = self.connection.text(line).split("\n")
        want(not rest, line.split(" ")[0])
        return rows

    def references(self):
        """Each reference's name, its target, and the target's type."""
        for row in self.rows(f"for-each-ref {self.name}"):
            target, _, ref = row.partition("\t")
            name, _, kind = target.partition(" ")
            want(is_name(name) and kind in KINDS and ref != "" and " " not in ref, "for-each-ref")
            yield ref, name, kind

    def head(self) -> str:
        """The branch that the repository's HEAD names, be it there or not."""
        rows = self.rows(f"head {self.name}")
        branch, *names = "".join(rows).split(" ")
        want(len(rows) == 1 and len(names) < 2 and all(map(is_name, names)), "head")
        want(branch.startswith(BRANCHES) and branch != BRANCHES, "head")
        return branch

    def object(self, name: str) -> Record:
        return read_record(self.connection.ask(f"cat-file {name}"))

    def sees(self, name: str) -> bool:
        """Whether the tenant sees an object of this name."""
        try:
            self.connection.ask(f"cat-file {name}")
            return True
        except Refused as refusal:
            if refusal.word != "missing":
                raise
            return False

    def revisions(self, wanted: list, excluded: list) -> list:
        """The commits that some names lead to, and others do not."""
        names = self.rows(self.items("rev-list", wanted, excluded))
        want(all(map(is_name, names)), "rev-list")
        return names

    def reached(self, wanted: list, excluded: list):
        """The objects that some names lead to, and others do not."""
        return records(self.connection.ask(self.items("fetch", wanted, excluded)))

    def quota(self) -> tuple:
        """The tenant's use and its limit, in bytes."""
        numbers = [word for row in self.rows("quota") for word in row.split(" ")]
        want(len(numbers) == 2 and all(word.isascii() and word.isdigit() for word in numbers), "quota")
        return int(numbers[0]), int(numbers[1])

    def change(self, line: str, body: bytes = b"") -> None:
        """A request whose reply has no data."""
        if self.connection.ask(line, body).left:
            raise Lost(f"the host's reply to {line.split(' ')[0]} has an unknown form")

    def fits(self, length: int) -> bool:
        """Whether a body of this length is a push in one frame."""
        return len(f"push {self.name}\n") + length <= MAX_PAYLOAD

    def push(self, body: bytes) -> None:
        self.change(f"push {self.name}", body)

    def part(self, piece: bytes) -> None:
        self.change("part", piece)

    def end_upload(self) -> None:
        self.change(f"part-end {self.name}")

    def drop_upload(self) -> bool:
        """Takes away the upload of the tenant that is open; whether one was."""
        try:
            self.change("part-drop")
            return True
        except Refused as refusal:
            if refusal.word != "no-upload":
                raise
            return False
