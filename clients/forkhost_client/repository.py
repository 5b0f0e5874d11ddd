"""The repository that Git works in, asked by Git's own commands."""
import os

from .asking import Asking
from .child import Child, in_memory, ran, widen
from .faults import GitFailed
from .frames import bytes_of, text_of
from .programs import NESTED
from .records import Size

ABOUT = ("rev-parse", "--show-object-format", "--is-shallow-repository", "--git-path", "objects")
PIPE = 1 << 20
# What the client looks at of Git's configuration, in names as `git config` prints them.
PARTIAL = r"extensions\.partialclone|remote\..*\.promisor"
# What links lead to, each with a path; and that with types and lengths beside.
REACHED = ("rev-list", "--objects", "--topo-order", "--reverse", "--stdin")
SIZED = ("cat-file", "--buffer", "--batch-check=%(objectname) %(objecttype) %(objectsize) %(rest)")
LOOKED_AT = rf"^({PARTIAL}|core\.sharedrepository|(fetch|transfer)\.(unpacklimit|fsckobjects)|forkhost\.autocreate)$"


def environment(outer) -> dict:
    """That of the children: no object stands for another, and none is fetched on the way."""
    return {**outer, "GIT_NO_REPLACE_OBJECTS": "1", "GIT_NO_LAZY_FETCH": "1", NESTED: "1"}


def lines(names) -> bytes:
    return b"".join(bytes_of(name) + b"\n" for name in names)


class Repository:
    def __init__(self, outer, quiet: bool = False):
        """Git's own words of a fault go to standard error, unless it is to be quiet."""
        self.environment, self.quiet = environment(outer), quiet
        # What was asked once is kept: Git's words about it, the settings that are made, and who is asked of objects.
        self.told, self.made, self.asking = None, None, None

    def ran(self, words: tuple, given: bytes, quiet: bool) -> tuple:
        """The status of a command of Git, and what it prints."""
        source = in_memory(given) if given else -1
        try:
            status, output = ran(["git", *words], self.environment, source, quiet)
        finally:
            if given:
                os.close(source)
        return status, text_of(output)

    def output(self, *words: str, given: bytes = b"") -> str:
        """What a command of Git prints; one that fails says so itself."""
        status, output = self.ran(words, given, self.quiet)
        if status:
            raise GitFailed(f"git {words[0]} failed")
        return output

    def answer(self, *words: str, given: bytes = b"") -> "str | None":
        """What a command of Git prints, without the last line feed, or None where it fails, and then silently."""
        status, output = self.ran(words, given, True)
        return output.rstrip("\n") if status == 0 else None

    def about(self) -> list:
        """Its format, whether it is cut short, and the folder of its objects; nothing if there is none."""
        if self.told is None:
            self.told = (self.answer(*ABOUT) or "").split("\n", 2)
        return self.told

    def object_format(self) -> str:
        return self.about()[0]

    def is_shallow(self) -> bool:
        return self.about()[1] == "true"

    def objects_folder(self) -> str:
        return os.path.abspath(self.about()[2])

    def settings(self) -> list:
        """Those that are looked at, and are made somewhere: mostly none."""
        if self.made is None:
            self.made = (self.answer("config", "--name-only", "--get-regexp", LOOKED_AT) or "").split("\n")
        return self.made

    def is_partial(self) -> bool:
        """Whether objects that references lead to may be elsewhere."""
        return any(name.startswith(("extensions.", "remote.")) for name in self.settings())

    def is_shared(self) -> bool:
        """Whether the modes of its files are other than those that a process gives them."""
        return "core.sharedrepository" in self.settings()

    def setting(self, *names: str, kind: str) -> "str | None":
        """The value of the first of these names that is configured."""
        values = (self.answer("config", f"--type={kind}", name) for name in names if name.lower() in self.settings())
        return next((value for value in values if value is not None), None)

    def infos(self, revisions: list) -> list:
        """What objects the revisions name, each in its place; None for what names none here."""
        if self.asking is None:
            self.asking = Asking(self.environment, self.quiet)
        return self.asking.infos(revisions) if revisions else []

    def resolve(self, revisions: list) -> list:
        """The names of objects here by revisions, each in its place; None for what names none."""
        return [size and size.name for size in self.infos(revisions)]

    def present(self, names) -> dict:
        """Those of the names whose objects are here, with their sizes."""
        return {size.name: size for size in self.infos(list(dict.fromkeys(names))) if size}

    def tips(self) -> list:
        """The commits that references and HEAD lead to, the newest first."""
        return self.output("rev-list", "--no-walk", "--all").split()

    def history(self) -> dict:
        """Each commit that references and HEAD lead to, with its parents."""
        rows = (row.split(" ") for row in self.output("rev-list", "--parents", "--all").splitlines())
        return {name: parents for name, *parents in rows}

    def reached(self, wanted: list, excluded: list) -> tuple:
        """The sizes of what links lead to, by names, commits after their parents; and for each a path, or nothing.

        An object that is not here has none. One command of Git lists while the other one looks at what is listed."""
        source = in_memory(lines(wanted) + lines("^" + name for name in excluded))
        with Child(["git", *REACHED], self.environment, source, self.quiet) as listed:
            os.close(source)
            with Child(["git", *SIZED], self.environment, listed.output.fileno(), self.quiet) as sized:
                listed.output.close()
                rows = text_of(sized.output.read()).split("\n")[:-1]
            if listed.wait() or sized.wait():
                raise GitFailed("git rev-list failed")
        found = [words for words in (row.split(" ", 3) for row in rows) if len(words) == 4]
        sizes = {name: Size(name, kind, int(length)) for name, kind, length, _ in found}
        return sizes, {name: path for name, _, _, path in found}

    def records(self, names: list) -> "Batch":
        return Batch(self, names)


class Batch:
    """The records of objects as `git cat-file --batch` prints them, one after another; a `with` statement ends it."""

    def __init__(self, repository: Repository, names: list):
        source = in_memory(lines(names))
        self.child = Child(["git", "cat-file", "--batch", "--buffer"], repository.environment, source)
        os.close(source)
        # Git reads on, as far as a part of an upload goes, while the host takes the part before.
        widen(self.child.output.fileno(), PIPE)

    def read(self, count: int) -> bytes:
        """This many bytes, all of which must be there."""
        data = self.child.output.read(count)
        if len(data) != count:
            raise GitFailed("git cat-file ended too early")
        return data

    def contents(self):
        """Each object's name and content."""
        while line := self.child.output.readline():
            name, _, length = line.split(b" ")
            yield name.decode(), self.read(int(length))
            self.read(1)

    def __enter__(self) -> "Batch":
        return self

    def __exit__(self, *_) -> None:
        self.child.__exit__()
