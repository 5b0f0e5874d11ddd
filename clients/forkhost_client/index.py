"""The index of a pack, and both of them put into a repository, as `git index-pack --keep` does it."""
import os
from hashlib import sha256
from struct import pack

from .nameless import nameless

SIGN, VERSION = b"\377tOc", 2
# An index with greater offsets has one more table, and is left to Git.
MOST = 1 << 31
READ_ONLY = 0o444


def fan_out(names: list) -> list:
    """For each first byte, how many names have it or a lesser one."""
    counts = [0] * 256
    for name in names:
        counts[name[0]] += 1
    return [sum(counts[: at + 1]) for at in range(256)]


def index(rows: list, sum_of_pack: bytes) -> bytes:
    """Version 2, with names of SHA-256 (gitformat-pack(5)), of rows of a name, a CRC-32 and an offset."""
    names, checks, offsets = zip(*sorted(rows))
    numbers = f">{len(rows)}I"
    body = SIGN + pack(">257I", VERSION, *fan_out(names)) + b"".join(names)
    body += pack(numbers, *checks) + pack(numbers, *offsets) + sum_of_pack
    return body + sha256(body).digest()


def name_file(file, path: str) -> None:
    """Gives a whole file its name, where no file of this name, and so of the same bytes, is there."""
    file.flush()
    os.fsync(file.fileno())
    try:
        # With a folder's file the link is to what the first path leads to.
        os.link(f"/proc/self/fd/{file.fileno()}", path, src_dir_fd=file.fileno(), follow_symlinks=True)
    except FileExistsError:
        pass


def hold(path: str) -> bool:
    """Makes the file that holds a pack; whether nobody else holds it."""
    try:
        with open(path, "x", encoding="ascii") as file:
            file.write(f"forkhost {os.getpid()}\n")
        return True
    except FileExistsError:
        return False


def put(folder: str, file, rows: list, sum_of_pack: bytes) -> "str | None":
    """A pack in a file without a name, into the folder of packs; the path of the file that holds it, if it is ours."""
    path = os.path.join(folder, f"pack-{sum_of_pack.hex()}")
    with nameless(folder, READ_ONLY) as other:
        other.write(index(rows, sum_of_pack))
        is_ours = hold(f"{path}.keep")
        try:
            name_file(file, f"{path}.pack")
            name_file(other, f"{path}.idx")
        except OSError:
            if is_ours:
                os.remove(f"{path}.keep")
            raise
    return f"{path}.keep" if is_ours else None
