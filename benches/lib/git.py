"""Git with no configuration but ours, and repositories of the SHA-256 format, each in a new folder."""
import os
import subprocess
import sys
import tempfile

# GLIBC_TUNABLES, if it is set, is handed on (docs/OPERATING.md).
HANDED_ON = {name: os.environ[name] for name in ("PATH", "GLIBC_TUNABLES") if name in os.environ}
ENV = {**HANDED_ON, "GIT_CONFIG_GLOBAL": os.devnull, "GIT_CONFIG_NOSYSTEM": "1", "LC_ALL": "C"}
REACHED = ["git", "rev-list", "--objects", "--no-object-names"]
# The order in which `git-remote-forkhost` sends objects: commits after their parents, and then what they lead to.
AS_SENT = [*REACHED, "--topo-order", "--reverse", "--all"]
CONTENTS = ["git", "cat-file", "--batch", "--buffer"]
CREATE = "--format=create %(refname) %(objectname)"


def new(work, name):
    """A path of this name in a new folder, where nothing is yet."""
    return os.path.join(tempfile.mkdtemp(dir=work), name)


def git(folder, *words, **how):
    return subprocess.run(["git", *words], cwd=folder, env=ENV, check=True, **how)


def output(folder, *words, **how):
    return git(folder, *words, stdout=subprocess.PIPE, **how).stdout


def repository(work, name):
    """An empty repository."""
    folder = new(work, name)
    git(work, "init", "-q", "--object-format=sha256", "-b", "main", folder)
    return folder


def imported(work, stream):
    """A repository of what a stream of git-fast-import(1) holds."""
    folder = repository(work, "source")
    importer = subprocess.Popen(["git", "fast-import", "--quiet", "--force"], cwd=folder, env=ENV, stdin=subprocess.PIPE)
    for piece in stream:
        importer.stdin.write(piece)
    importer.stdin.close()
    if importer.wait():
        sys.exit("the stream was not imported")
    return folder


def unpacked(work, source):
    """A repository with the same references, and each object in a file of its own."""
    folder = repository(work, "loose")
    pack = output(source, "pack-objects", "--all", "--stdout", "-q", stdin=subprocess.DEVNULL)
    git(folder, "unpack-objects", "-q", input=pack)
    git(folder, "update-ref", "--stdin", input=output(source, "for-each-ref", CREATE))
    return folder


def piped(folder, commands):
    """The output of the last of these commands, each of which reads what the one before it writes."""
    children, source = [], subprocess.DEVNULL
    for words in commands:
        children.append(subprocess.Popen(words, cwd=folder, env=ENV, stdin=source, stdout=subprocess.PIPE))
        source = children[-1].stdout
    written = source.read()
    if any([child.wait() for child in children]):
        sys.exit(f"{commands}: failed")
    return written


def body_of(folder, names=None):
    """All references and objects, in the order of these names or in that in which they are sent, as the body of a push."""
    objects = piped(folder, [AS_SENT, CONTENTS]) if names is None else output(folder, *CONTENTS[1:], input=names)
    return output(folder, "for-each-ref", CREATE) + b"\n" + objects
