"""Histories of every shape as one stream of git-fast-import(1). The author's seconds have nothing to do with the
committer's. Files change between a few contents, so that the same trees and blobs come back."""
import random

START = 1_700_000_000
ZONES = (b"+0000", b"-0330", b"+1245")
FILES = [b"%s/%s" % (folder, file) for folder in (b"a", b"a/b", b"c") for file in (b"x", b"y", b"z")]


class Stream:
    def __init__(self, seed):
        self.chance = random.Random(seed)
        self.text, self.count = [], 0

    def commit(self, parents, seconds, changes=None):
        """A commit with these parents, as their numbers, and its own number, which is its mark."""
        self.count += 1
        author = self.chance.randrange(1 << 31)
        self.text.append(b"reset refs/import\n\ncommit refs/import\nmark :%d\n" % self.count)
        self.text.append(b"author Ada <ada@x.org> %d +0000\n" % author)
        self.text.append(b"committer Bo <bo@x.org> %d %s\n" % (seconds, self.chance.choice(ZONES)))
        self.text.append(b"data <<END\ncommit %d\nEND\n" % self.count)
        for at, parent in enumerate(parents):
            self.text.append(b"%s :%d\n" % (b"merge" if at else b"from", parent))
        self.text.append(self.change() if changes is None else changes)
        return self.count

    def change(self):
        """One file is written again."""
        path, content = self.chance.choice(FILES), b"content %d" % self.chance.randrange(5)
        return b"M 100644 inline %s\ndata %d\n%s\n" % (path, len(content), content)


def all_modes(stream):
    """One commit with entries of all modes, odd file names, and a folder that sorts after a file."""
    inline = b" inline %s\ndata 3\nab\n\n"
    paths = (b"a", b"a.b", b"a0", b"-dash", b"*", b'"with space"', b'"qu\\"ote"', b'"tab\\there"', b'"new\\nline"',
             b'"\\377\\376"', b"deep/b/c/d")
    files = b"".join(b"M 100644" + inline % path for path in paths)
    others = b"M 100755" + inline % b"run" + b"M 120000" + inline % b"link" + b"M 100644" + inline % b"folder/x"
    gitlink = b"M 160000 %s module\n" % (b"12" * 32)
    return stream.commit([], START, files + others + gitlink)


def empty(stream):
    """Two commits with empty trees."""
    first = stream.commit([], START, b"")
    return stream.commit([first], START + 1, b"")


def line(stream, length):
    """Commits one after another, three of each second."""
    tip = []
    for number in range(length):
        tip = [stream.commit(tip, START + number // 3)]
    return tip[0]


def octopus(stream):
    """Two merges of the same six branches, and one of both, with one parent twice."""
    root = stream.commit([], START)
    branches = [stream.commit([root], START + 1 + number) for number in range(6)]
    first = stream.commit(branches, START + 100)
    second = stream.commit(branches[::-1], START + 100)
    return first, second, stream.commit([first, second, branches[0], first], START + 200)


def criss_cross(stream, levels, skewed=False):
    """Two branches, each of which merges the other one again and again."""
    a = b = stream.commit([], START)
    for level in range(1, levels + 1):
        seconds = START - level if skewed else START + level
        a, b = stream.commit([a, b], seconds), stream.commit([b, a], seconds)
    return a, b


def many_bases(stream, count):
    """Two merges of this many unrelated roots."""
    roots = [stream.commit([], START + number) for number in range(count)]
    return stream.commit(roots, START + count), stream.commit(roots[::-1], START + count)


def ladder(stream, length, spread):
    """Two branches of one root, one of which is older by its dates, joined by a few merges."""
    old = new = stream.commit([], START)
    for number in range(length):
        old = stream.commit([old], START + 1 + number)
        new = stream.commit([new, old] if number % 7 == 6 else [new], START + 2 + spread + number)
    return old, new


def some_parents(stream, commits):
    """Up to four of the last dozen commits; none now and then."""
    count = stream.chance.choices((0, 1, 2, 3, 4), (3, 60, 25, 8, 4))[0]
    near = commits[-12:]
    return stream.chance.sample(near, min(count, len(near)))


def by_chance(stream, count, skewed):
    """This many commits with parents at random, and also dates, of the whole range where they are skewed."""
    commits, seconds = [], {}
    for _ in range(count):
        parents = some_parents(stream, commits)
        newest = max((seconds[parent] for parent in parents), default=START)
        when = stream.chance.choice((0, 1, START, START, 1 << 33)) if skewed else newest
        when += stream.chance.randrange(100 if skewed else 3)
        commits.append(stream.commit(parents, when))
        seconds[commits[-1]] = when
    return commits
