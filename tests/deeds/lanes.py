"""Checks side by side, of several crates and of one."""
import threading
import time
from concurrent.futures import ThreadPoolExecutor

from deeds.kit import checked

NO_CHECK = "error: there was no check", 0.0


class Lanes:
    """Lanes that try the batches of these trials. A lane goes on with the crate that it has, or else begins the next one; where
    all are begun, it helps with another. After so many seconds no check begins, and those that run are ended."""

    def __init__(self, trials, seconds):
        self.waiting, self.begun, self.change = list(trials), [], threading.Condition()
        self.end = time.monotonic() + seconds

    def run(self, count):
        """Tries all batches in so many lanes, or those for which there is time."""
        with ThreadPoolExecutor(count) as pool:
            for lane in [pool.submit(self.work) for _ in range(count)]:
                lane.result()

    def work(self):
        """What one lane does, until nothing is left."""
        trial = None
        while taken := self.next(trial):
            trial, deeds, kept = taken
            said = NO_CHECK
            try:
                said = checked(trial.crate, deeds, kept, self.end)
            finally:
                with self.change:
                    trial.settle(deeds, kept, *said)
                    self.change.notify_all()

    def next(self, own):
        """A trial, its batch and the folder for the check that a lane makes next; None where there is none, or no time for it."""
        with self.change:
            while time.monotonic() < self.end:
                while not (own and own.is_ready()) and self.waiting:
                    own = self.waiting.pop(0)
                    own.begin()
                    self.begun.append(own)
                ready = [it for it in (own, *self.begun) if it and it.is_ready()]
                if ready:
                    return ready[0], *ready[0].take()
                if not any(it.running for it in self.begun):
                    return None
                self.change.wait()
