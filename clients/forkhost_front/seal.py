"""What belongs into a cache: its files but for references, with their sizes, as they were when it was last in order."""
import os

NAME = "seal"
# Where Git's receive-pack keeps what comes, until it is taken or refused.
QUARANTINE = "tmp_objdir"
LAST = "end"
FOLDERS = ("objects/pack", "refs")


def files(cache: str) -> dict:
    """The files that are there, by their paths in the cache."""
    found = {}
    for folder, folders, names in os.walk(os.path.join(cache, "objects")):
        folders[:] = [name for name in folders if not name.startswith(QUARANTINE)]
        for name in [*names, *(name for name in folders if os.path.islink(os.path.join(folder, name)))]:
            path = os.path.join(folder, name)
            found[os.path.relpath(path, cache)] = os.lstat(path).st_size
    path = os.path.join(cache, "config")
    if os.path.lexists(path):
        found["config"] = os.lstat(path).st_size
    return found


def first_line(cache: str) -> str:
    """Whose it is: the names of the tenant and of the repository."""
    return "/".join(cache.split(os.sep)[-2:])


def read(cache: str) -> "dict | None":
    """The files that belong there; None where the seal is not there, was cut, or is that of another cache."""
    try:
        with open(os.path.join(cache, NAME), encoding="ascii") as file:
            first, *lines, last, end = file.read().split("\n")
        if first != first_line(cache) or last != LAST or end:
            return None
        return {name: int(size) for size, name in (line.split(" ", 1) for line in lines)}
    except (OSError, ValueError):
        return None


def write(cache: str) -> None:
    """What is there now belongs there."""
    path = os.path.join(cache, NAME)
    rows = [f"{size} {name}" for name, size in sorted(files(cache).items())]
    with open(path + ".new", "w", encoding="ascii") as file:
        file.write("\n".join([first_line(cache), *rows, LAST, ""]))
    os.rename(path + ".new", path)


def why_spoiled(cache: str) -> "str | None":
    """What is not as it was; what came beside, by a request that broke off, is removed."""
    wanted, found = read(cache), files(cache)
    if wanted is None:
        return "it has no seal of its own"
    for name in FOLDERS:
        if not os.path.isdir(os.path.join(cache, name)):
            return f"{name} is gone"
    for name, size in wanted.items():
        if name not in found:
            return f"{name} is gone"
        if found[name] != size:
            return f"{name} has {found[name]} bytes and not {size}"
    for name in found:
        if name not in wanted:
            os.remove(os.path.join(cache, name))
    return None


def size(cache: str) -> int:
    """The bytes of a cache."""
    return sum((read(cache) or files(cache)).values())
