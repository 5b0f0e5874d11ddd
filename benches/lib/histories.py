"""Histories of small objects and of large ones, as streams of git-fast-import(1), and files of what they hold."""
import os
import random
import subprocess

from lib.git import AS_SENT, body_of, git, imported, output
from lib.sessions import PART, in_parts


def commit(number, files):
    """A commit that writes these files: pairs of a path and its content."""
    yield b"commit refs/heads/main\ncommitter Ada <ada@x.org> %d +0000\n" % (1700000000 + number)
    yield b"data 10\n%09d\n" % number
    for path, content in files:
        yield b"M 100644 inline %s\ndata %d\n%s\n" % (path, len(content), content)


def history(count):
    """This many objects: 112 of the first commit, and four of each other one."""
    chance = random.Random(count)
    line = lambda: chance.randbytes(100).hex().encode()
    paths = [b"folder%d/file%d" % (i // 10, i % 10) for i in range(100)]
    yield from commit(0, [(path, line()) for path in paths])
    for number in range(1, (count - 112) // 4 + 1):
        yield from commit(number, [(chance.choice(paths), line())])


def large(count):
    """This many blobs of 300 KiB, and one tree and one commit."""
    chance = random.Random(count)
    yield from commit(0, ((b"file%d" % i, chance.randbytes(300 * 1024)) for i in range(count)))


class Filled:
    """A repository of what a stream holds, and files of it in this folder: a pack, a stream, and the body of a push."""

    def __init__(self, work, stream):
        self.work, self.source = work, imported(work, stream)
        with open(self.path("pack"), "wb") as out:
            git(self.source, "pack-objects", "--all", "--stdout", "-q", stdin=subprocess.DEVNULL, stdout=out)
        with open(self.path("stream"), "wb") as out:
            git(self.source, "fast-export", "--all", stdout=out)
        with open(self.path("body"), "wb") as out:
            out.write(body_of(self.source))
        self.count = len(output(self.source, *AS_SENT[1:]).splitlines())

    def path(self, name):
        return os.path.join(self.work, name)

    def frames(self, name="frames", size=PART):
        """A file of this name of the body as requests, in parts of this many bytes; how many there are."""
        count, path = 1, self.path(name)
        with open(self.path("body"), "rb") as body, open(path, "wb") as out:
            out.write(b"alice 7\ninit r\n")
            while piece := body.read(size):
                out.write(b"alice %d\npart\n" % (len(piece) + 5) + piece)
                count += 1
            out.write(b"alice 11\npart-end r\n")
        return path, count + 1

    def tip(self):
        return output(self.source, "rev-parse", "main").strip()


def objects_of(work, count):
    """The source of a history of this many objects, how many there are, and a push in parts of the objects alone."""
    source = imported(work, history(count))
    body = b"\n" + output(source, "cat-file", "--batch", "--batch-all-objects")
    return source, len(output(source, *AS_SENT[1:]).splitlines()), in_parts(body)
