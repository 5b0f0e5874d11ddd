"""Repositories to push: one with all that Git has, and histories of a chosen shape."""
import hashlib

ODD_FILES = ["a b", "q\"uote", "tab\there", "new\nline", "\u00e4\u00f6", "raw\udcff", "-dash", "deep/er/x", "a.lock"]
IDENT = "Ada <ada@example.org>"


def name_of(kind, content):
    return hashlib.sha256(b"%s %d\0%s" % (kind, len(content), content)).hexdigest()


def commit(world, at, label, *parents, branch="main", files=None):
    """A commit on a branch; its files are those of its first parent and these. Its name."""
    stream = [f"commit refs/heads/{branch}\ncommitter {IDENT} {seconds(world)} +0000\ndata {len(label)}\n{label}\n"]
    if parents:
        stream.append(f"from {parents[0]}\n" + "".join(f"merge {other}\n" for other in parents[1:]))
    for path, content in (files or {f"{label}.txt": f"{label}\n"}).items():
        stream.append(f"M 100644 inline {path}\ndata {len(content)}\n{content}\n")
    world.output(at, "fast-import", "--quiet", "--force", given="".join(stream).encode("utf-8", "surrogateescape"))
    return world.name(at, f"refs/heads/{branch}")


def seconds(world):
    """A later second with each commit."""
    world.seconds = getattr(world, "seconds", 1_700_000_000) + 1
    return world.seconds


def line(world, at, *labels, branch="main", parent=None):
    """Commits one after another; their names."""
    names = []
    for label in labels:
        names.append(commit(world, at, label, *([parent] if parent else []), branch=branch))
        parent = names[-1]
    return names


def history(count, files=4, size=40):
    """A stream of fast-import: this many commits, each of which changes one file of many."""
    for number in range(count):
        yield b"commit refs/heads/main\ncommitter Ada <a@x> %d +0000\ndata 6\n%06d\n" % (1_700_000_000 + number, number)
        for at in range(files) if number == 0 else [number % files]:
            content = b"%d %d " % (number, at) * (size // 5)
            yield b"M 100644 inline d%d/f%d\ndata %d\n%s\n" % (at % 7, at, len(content), content)


def imported(world, name, stream):
    """A repository that is filled by a stream of fast-import."""
    world.repository(name)
    world.output(name, "fast-import", "--quiet", given=b"".join(stream))
    return name


def hashed(world, at, kind, content, *words):
    return world.output(at, "hash-object", "-w", "-t", kind, *words, "--stdin", given=content)


def tree_of(world, at, *entries):
    """A tree of entries in their order, whatever they are: mode, file name, object. Its name."""
    raw = b"".join(b"%s %s\0%s" % (mode.encode(), file.encode(), bytes.fromhex(name)) for mode, file, name in entries)
    return hashed(world, at, "tree", raw, "--literally")


def commit_of(world, at, tree, *parents, author=IDENT + " 1700000000 +0000"):
    lines = [f"tree {tree}", *(f"parent {parent}" for parent in parents), f"author {author}", f"committer {author}"]
    return hashed(world, at, "commit", "\n".join([*lines, "", "one", ""]).encode(), "--literally")


def everything(world, name):
    """Merges, tags of every kind, all modes, odd file names, odd names of references."""
    world.repository(name)
    first = commit(world, name, "first", files={"dir/one": "1\n", "two": "2\n", "empty": ""})
    odd = {world_path(file): f"content of {at}\n" for at, file in enumerate(ODD_FILES)}
    second = commit(world, name, "second", first, files=odd)
    side = commit(world, name, "side", first, branch="topic/side")
    third = commit(world, name, "third", first, branch="x")
    merge = commit(world, name, "merge", second, side, third)
    blob = hashed(world, name, "blob", b"\0\xffbinary\r\n" * 50)
    empty = hashed(world, name, "tree", b"")
    modes = [("100755", "x", blob), ("120000", "y", blob), ("160000", "z", "ab" * 32), ("40000", "zz", empty)]
    tree = tree_of(world, name, ("100644", "a", blob), *modes)
    orphan = commit_of(world, name, tree)
    world.output(name, "update-ref", "refs/heads/orphan", orphan)
    world.output(name, "update-ref", "refs/heads/\u00fcnder/\udc80".encode("utf-8", "surrogateescape"), side)
    world.output(name, "update-ref", "refs/notes/n", third)
    world.output(name, "update-ref", "refs/tags/of/blob", blob)
    world.output(name, "update-ref", "refs/tags/of/tree", tree)
    for words in (["light", second], ["-a", "-m", "one", "v1", merge], ["-a", "-m", "two", "v1-again", "v1"]):
        world.output(name, "tag", *words)
    for words in (["t", tree], ["b", blob], ["thrice", "v1-again"]):
        world.output(name, "tag", "-a", "-m", "tag", *words)
    world.output(name, "symbolic-ref", "HEAD", "refs/heads/main")
    return name


def world_path(file):
    """A path as fast-import wants it: quoted, with the bytes that need it in octal."""
    raw = file.encode("utf-8", "surrogateescape")
    return '"' + "".join(chr(b) if 32 < b < 127 and b not in b'"\\' else f"\\{b:03o}" for b in raw) + '"'
