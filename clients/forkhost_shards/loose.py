"""Objects in a file each: `objects/XX/REST` (docs/FORMATS.md, "Stored file and journal")."""
import os

from .files import content, synced, written


class Loose:
    PLACE = "objects"

    def __init__(self, folder: str):
        self.path = os.path.join(folder, self.PLACE)

    def file_of(self, name: str) -> str:
        return os.path.join(self.path, name[:2], name[2:])

    def load(self, names: list) -> None:
        """Nothing is to be known of the files before they are read."""

    def read(self, name: str) -> "bytes | None":
        return content(self.file_of(name))

    def has(self, name: str) -> bool:
        """None counts: a file that nobody sees may be damaged, and a whole one in its place is the same."""
        return False

    def write(self, rows) -> None:
        """Files by name, into a folder that has none of them."""
        for name, data in rows:
            os.makedirs(os.path.dirname(self.file_of(name)), mode=0o700, exist_ok=True)
            written(self.file_of(name), [data])

    def count(self) -> int:
        """What `take` is told; files are found by their names."""
        return 0

    def take(self, other: "Loose", count: int, names: list) -> None:
        """Files of another folder on the same file system come here."""
        for name in names:
            os.makedirs(os.path.dirname(self.file_of(name)), mode=0o700, exist_ok=True)
            os.replace(other.file_of(name), self.file_of(name))
        for front in sorted({name[:2] for name in names}):
            synced(os.path.join(self.path, front))
        synced(self.path)
