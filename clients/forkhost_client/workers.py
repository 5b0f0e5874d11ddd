"""Threads for work that runs without Python's lock, as that of zlib and hashlib on more than a few bytes."""
import os
from _queue import SimpleQueue
from _thread import start_new_thread

# More than these would have nothing to do.
MOST = 4
# Of this many pieces for each of them the results are waited for.
AHEAD = 2


class Workers:
    """Pieces of work go in, and their results come out in the same order. The threads end with the process."""

    def __init__(self, work):
        self.work, self.due, self.results = work, SimpleQueue(), []
        self.count = min(MOST, len(os.sched_getaffinity(0)))
        for _ in range(self.count):
            start_new_thread(self.run, ())

    def run(self) -> None:
        while True:
            piece, result = self.due.get()
            try:
                result.put((self.work(piece), None))
            except Exception as fault:
                result.put((None, fault))

    def give(self, piece):
        """Takes a piece of work; the results that are due."""
        self.results.append(SimpleQueue())
        self.due.put((piece, self.results[-1]))
        return self.take(self.count * AHEAD)

    def take(self, left: int = 0):
        """Results, until no more than this many pieces are left. A fault of the work is raised."""
        while len(self.results) > left:
            found, fault = self.results.pop(0).get()
            if fault:
                raise fault
            yield found
