"""Files and folders that are on the disk when the call has ended."""
import os


def synced(path: str) -> None:
    """A folder's entries, or a file's bytes."""
    file = os.open(path, os.O_RDONLY | os.O_CLOEXEC)
    try:
        os.fsync(file)
    finally:
        os.close(file)


def written(path: str, pieces) -> None:
    """A new file, of mode 0600."""
    with open(os.open(path, os.O_WRONLY | os.O_CREAT | os.O_EXCL | os.O_CLOEXEC, 0o600), "wb") as file:
        for piece in pieces:
            file.write(piece)
        file.flush()
        os.fsync(file.fileno())


def content(path: str) -> "bytes | None":
    """The bytes of a file; None if nothing is there."""
    try:
        with open(path, "rb") as file:
            return file.read()
    except FileNotFoundError:
        return None
