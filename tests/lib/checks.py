"""Counts what was shown and what failed: the one way in which a test passes or fails."""
import os
import sys
import tempfile
import traceback
from concurrent.futures import ProcessPoolExecutor
from itertools import repeat

from lib.program import given_program

LONGEST = 300


def shown(value):
    text = str(value)
    return text if len(text) <= LONGEST else text[:LONGEST] + ".."


class Checks:
    def __init__(self):
        self.passed = self.failed = 0
        # What each failure begins with.
        self.kind = ""
        # The names of all subjects that there are.
        self.subjects = set()

    def same(self, label, wanted, told):
        """One check: the value is the wanted one."""
        self.holds(label, None if wanted == told else f"{shown(told)}, and not {shown(wanted)}")

    def holds(self, label, why):
        """One check: there is no reason why not."""
        if why is None:
            self.passed += 1
        else:
            self.failed += 1
            print(f"failed: {self.kind}{label}: {why}", flush=True)

    def add(self, passed, failed):
        """Checks that were counted elsewhere."""
        self.passed, self.failed = self.passed + passed, self.failed + failed

    def show(self, shows, program):
        """Shows each subject, and ends."""
        self.run(shows, program)
        self.end()

    def show_both(self, shows, program, loose=()):
        """Shows each subject over folders with a file for each object and over packed ones, some over the first alone, and ends."""
        self.run((*shows, *loose), program)
        self.kind = "packed: "
        self.run(shows, program.packed())
        self.end()

    def show_at_once(self, shows, count, world=None):
        """Shows the subjects that the command line names, or all, this many at once, and ends."""
        with ProcessPoolExecutor(count) as pool:
            for passed, failed in pool.map(counts, self.chosen(shows), repeat(world)):
                self.add(passed, failed)
        self.end()

    def chosen(self, shows):
        """Those that the command line names, or all."""
        self.subjects.update(show.__name__ for show in shows)
        return [show for show in shows if show.__name__ in sys.argv[2:] or not sys.argv[2:]]

    def run(self, shows, program, world=None):
        """Shows each chosen subject in a new folder, or in a world that is made there; one that breaks off in any way counts as a failure."""
        with tempfile.TemporaryDirectory() as work:
            for show in self.chosen(shows):
                folder = os.path.join(work, show.__name__)
                os.mkdir(folder)
                try:
                    self.begin(show, program, folder, world)
                except Exception as error:
                    traceback.print_exc()
                    self.same(show.__name__, "an end", repr(error))
                program.stop()

    def begin(self, show, program, folder, world):
        if world is None:
            return show(self, program, folder)
        with world(self, program, folder) as made:
            show(made)

    def end(self):
        for name in sys.argv[2:]:
            if self.subjects and name not in self.subjects:
                self.holds(name, "no subject has this name")
        print(f"{self.passed} passed, {self.failed} failed")
        sys.exit(self.failed != 0 or self.passed == 0)


def counts(show, world):
    """How many checks of one subject passed, and how many failed."""
    checks = Checks()
    checks.run([show], given_program(), world)
    return checks.passed, checks.failed
