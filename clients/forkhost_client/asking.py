"""One `git cat-file` that is asked about objects, as often as there are questions."""
import os

from .child import Child, written
from .faults import GitFailed
from .forms import is_name
from .frames import bytes_of, text_of
from .records import Size

FLUSH = b"flush\n"


class Asking:
    """It ends when this process does, as nobody asks it then. It reads all questions before it answers the first."""

    def __init__(self, environment: dict, quiet: bool):
        source, self.questions = os.pipe()
        words = ["git", "cat-file", "--batch-command", "--buffer"]
        self.child = Child(words, environment, source, quiet)
        os.close(source)

    def infos(self, revisions: list) -> list:
        """What objects the revisions name, each in its place; None for what names none here."""
        asked = b"".join(b"info " + bytes_of(revision) + b"\n" for revision in revisions)
        try:
            written(self.questions, asked + FLUSH)
        except BrokenPipeError as fault:
            raise GitFailed("git cat-file failed") from fault
        return [read_size(text_of(self.child.output.readline())) for _ in revisions]


def read_size(row: str) -> "Size | None":
    """A line of `git cat-file`; that of an object which is not here ends in another word than a length."""
    if not row:
        raise GitFailed("git cat-file failed")
    words = row.rstrip("\n").split(" ")
    is_here = len(words) == 3 and is_name(words[0]) and words[2].isdigit()
    return Size(words[0], words[1], int(words[2])) if is_here else None
