"""Files without a name, which are gone with the process that has them."""
import os

PIECE = 1 << 20


def nameless(folder: str, mode: int = 0o600):
    """A new one, on the file system of a folder. With `mode` it may be given a name."""
    try:
        return open(os.open(folder, os.O_TMPFILE | os.O_RDWR | os.O_CLOEXEC, mode), "w+b", PIECE)
    except OSError:
        # There are file systems on which it has a name for a moment.
        from tempfile import TemporaryFile

        return TemporaryFile(dir=folder)
