"""Commands as children, by posix_spawn(3): the module `subprocess` takes longer to read in than such a command takes.

What a child reads is a file, in memory where it is bytes, so it never waits for this process while this one waits for it."""
import os
from _signal import SIGPIPE, SIGXFSZ

INPUT, OUTPUT, ERRORS = 0, 1, 2
PIECE = 1 << 16
NOTHING = (os.POSIX_SPAWN_OPEN, INPUT, os.devnull, os.O_RDONLY, 0)
# As Linux has it; Python has it since 3.10.
SET_PIPE_SIZE = 1031
QUIET = (os.POSIX_SPAWN_OPEN, ERRORS, os.devnull, os.O_WRONLY, 0)


def written(file: int, data: bytes) -> None:
    left = memoryview(data)
    while left:
        left = left[os.write(file, left) :]


def in_memory(data: bytes) -> int:
    """A file that has these bytes, and stands at their beginning."""
    file = os.memfd_create("forkhost")
    written(file, data)
    os.lseek(file, 0, os.SEEK_SET)
    return file


def widen(pipe: int, size: int) -> None:
    """Room for this many bytes in a pipe, if the kernel gives it."""
    from fcntl import fcntl

    try:
        fcntl(pipe, SET_PIPE_SIZE, size)
    except OSError:
        pass


class Child:
    """A command that runs, and what it prints; a `with` statement waits for its end."""

    def __init__(self, words: list, environment: dict, source: int = -1, quiet: bool = False, files: tuple = ()):
        """It reads a file, or nothing. It has these other files too."""
        reader, writer = os.pipe()
        actions = [(os.POSIX_SPAWN_DUP2, source, INPUT) if source >= 0 else NOTHING]
        actions += [(os.POSIX_SPAWN_DUP2, writer, OUTPUT), *((os.POSIX_SPAWN_DUP2, file, file) for file in files)]
        actions += [QUIET] if quiet else []
        self.status = None
        # What it prints.
        self.output = open(reader, "rb", PIECE)
        try:
            defaults = [SIGPIPE, SIGXFSZ]
            self.process = os.posix_spawnp(words[0], words, environment, file_actions=actions, setsigdef=defaults)
        finally:
            os.close(writer)

    def wait(self) -> int:
        """How it ended: a status, or a signal's number below nothing."""
        if self.status is None:
            self.status = os.waitstatus_to_exitcode(os.waitpid(self.process, 0)[1])
        return self.status

    def __enter__(self) -> "Child":
        return self

    def __exit__(self, *_) -> None:
        self.output.close()
        self.wait()


def ran(words: list, environment: dict, source: int = -1, quiet: bool = False) -> tuple:
    """A command's status, and what it printed."""
    with Child(words, environment, source, quiet) as child:
        output = child.output.read()
        return child.wait(), output
