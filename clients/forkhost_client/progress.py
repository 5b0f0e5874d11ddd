"""What the helper tells a person while it works, on standard error."""
import sys

# Seconds between two looks at a person's screen.
PAUSE = 0.1


def say(text: str) -> None:
    """One line. A person who is gone is told nothing."""
    shown = text.encode("utf-8", "surrogateescape").decode("utf-8", "backslashreplace")
    try:
        print(f"forkhost: {shown}", file=sys.stderr, flush=True)
    except OSError:
        pass


class Progress:
    """A line that counts up, as Git's own do; nothing where it is not asked for."""

    def __init__(self, title: str, shown: bool, total: int = 0):
        """A total of bytes, where it is known."""
        from time import monotonic

        self.title, self.shown, self.total, self.now = title, shown, total, monotonic
        self.count = self.bytes = 0
        self.last = self.now()

    def add(self, count: int, length: int) -> None:
        self.count += count
        self.bytes += length
        if self.shown and self.now() - self.last >= PAUSE:
            self.last = self.now()
            self.show("\r")

    def show(self, end: str) -> None:
        part = f"{100 * self.bytes // self.total:3}%" if self.total else f"{self.count}"
        print(f"{self.title}: {part}, {self.bytes / 1048576:.2f} MiB", end=end, file=sys.stderr, flush=True)

    def done(self) -> None:
        if self.shown:
            self.show(", done.\n")
