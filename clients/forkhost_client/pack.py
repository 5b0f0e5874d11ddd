"""A pack of objects whose number is known at its end alone, and its way into the repository."""
import os
from hashlib import sha256

from .child import ran
from .faults import GitFailed
from .index import MOST, READ_ONLY, put
from .nameless import nameless
from .packing import all_packed
from .progress import Progress
from .records import Record
from .repository import Repository

SIGN, VERSION = b"PACK", (2).to_bytes(4, "big")
# Fewer objects than this are unpacked, as Git does.
FEW = 100
PIECE = 1 << 20
# Bytes of objects that are packed at once, beside others if there are more.
BATCH = 1 << 19


class Pack:
    """Objects, each once, in a file without a name in the folder of the repository's objects."""

    def __init__(self, repository: Repository, progress: Progress):
        self.repository, self.progress = repository, progress
        self.folder = os.path.join(repository.objects_folder(), "pack")
        self.names = set()
        # What is not packed yet, and how many bytes have room there.
        self.batch, self.room, self.workers = [], BATCH, None
        # Of what is in the file: names, sums and offsets; and its length.
        self.rows, self.length = [], len(SIGN + VERSION) + 4
        os.makedirs(self.folder, exist_ok=True)
        self.file = nameless(self.folder, READ_ONLY)
        self.file.write(SIGN + VERSION + bytes(4))

    def __enter__(self) -> "Pack":
        return self

    def __exit__(self, *_) -> None:
        self.file.close()

    def add(self, record: Record) -> None:
        if record.name in self.names:
            return
        self.names.add(record.name)
        self.batch.append(record)
        self.room -= len(record.content)
        self.progress.add(1, len(record.content))
        if self.room < 0:
            self.pass_on()

    def pass_on(self) -> None:
        """The batch to the workers, and what they have done into the file."""
        if not self.workers:
            from .workers import Workers

            self.workers = Workers(all_packed)
        self.write(self.workers.give(self.batch))
        self.batch, self.room = [], BATCH

    def write(self, batches) -> None:
        for batch in batches:
            for name, check, data in batch:
                self.rows.append((name, check, self.length))
                self.file.write(data)
                self.length += len(data)

    def pieces(self):
        self.file.seek(0)
        while piece := self.file.read(PIECE):
            yield piece

    def end(self) -> bytes:
        """Writes the number of the objects, and the sum that ends a pack."""
        self.write(self.workers.take() if self.workers else ())
        self.write([all_packed(self.batch)])
        self.file.seek(len(SIGN + VERSION))
        self.file.write(len(self.names).to_bytes(4, "big"))
        digest = sha256()
        for piece in self.pieces():
            digest.update(piece)
        self.file.write(digest.digest())
        self.file.flush()
        os.lseek(self.file.fileno(), 0, os.SEEK_SET)
        return digest.digest()

    def keep(self, is_clone: bool) -> "str | None":
        """Brings the objects into the repository; the path of the file that holds a pack, if one is held.

        A clone keeps its pack, however few they are, as Git's own do."""
        if not self.names:
            return None
        total = self.end()
        self.progress.done()
        few = int(self.repository.setting("fetch.unpackLimit", "transfer.unpackLimit", kind="int") or FEW)
        strict = self.repository.setting("fetch.fsckObjects", "transfer.fsckObjects", kind="bool") == "true"
        words = ["--strict"] if strict else []
        if len(self.names) < few and not is_clone:
            self.taken("unpack-objects", ["-q", *words])
            return None
        if strict or self.repository.is_shared() or self.length >= MOST:
            return self.indexed(words)
        try:
            return put(self.folder, self.file, self.rows, total)
        except OSError:
            return self.indexed(words)

    def indexed(self, words: list) -> "str | None":
        """By Git, where it is to look at the objects, or where a file cannot be given a name."""
        words = ["--stdin", f"--keep=forkhost {os.getpid()}", *words, *(["-v"] if self.progress.shown else [])]
        word, _, name = self.taken("index-pack", words).strip().partition("\t")
        return os.path.join(self.folder, f"pack-{name}.keep") if word == "keep" else None

    def taken(self, command: str, words: list) -> str:
        outer, quiet = self.repository.environment, self.repository.quiet
        status, output = ran(["git", command, *words], outer, self.file.fileno(), quiet)
        if status:
            raise GitFailed("Git did not accept the received objects")
        return output.decode()
