"""A lock on a file, by flock(2): it ends with the last process that has the file open, however that ends."""
import fcntl
import os


class Lock:
    def __init__(self, path: str, file: int = -1):
        """`file` is one that another process opened and left to this one."""
        self.path = path
        self.file = file if file >= 0 else self.opened()

    def __enter__(self) -> "Lock":
        self.exclusive()
        return self

    def __exit__(self, *_) -> None:
        self.close()

    def opened(self) -> int:
        return os.open(self.path, os.O_RDWR | os.O_CREAT, 0o600)

    def is_there(self) -> bool:
        """Whether the path still leads to the file that is open."""
        try:
            return os.path.samestat(os.stat(self.path), os.fstat(self.file))
        except FileNotFoundError:
            return False

    def take(self, how: int) -> None:
        """Waits for the lock. Who had it may have removed the file; then it is that of the new one."""
        fcntl.flock(self.file, how)
        while not self.is_there():
            os.close(self.file)
            self.file = self.opened()
            fcntl.flock(self.file, how)

    def exclusive(self) -> None:
        self.take(fcntl.LOCK_EX)

    def shared(self) -> None:
        self.take(fcntl.LOCK_SH)

    def try_exclusive(self) -> bool:
        try:
            fcntl.flock(self.file, fcntl.LOCK_EX | fcntl.LOCK_NB)
            return self.is_there()
        except BlockingIOError:
            return False

    def release(self) -> None:
        fcntl.flock(self.file, fcntl.LOCK_UN)

    def close(self) -> None:
        """Lets go of the file. The lock stays where another process has it."""
        os.close(self.file)
