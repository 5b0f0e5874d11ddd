"""Processes that stay on one processor, whose caches are filled with other memory before a measure."""
import os
import subprocess
import sys

from lib.program import Program

# Reads more bytes than the caches of a processor hold. It is a process of its own, as the peak memory of this one is
# the floor of what its children report.
OTHERS = [sys.executable, "-c", "bytearray(b'x') * 67_108_864"]


def held(words, **how):
    """A process on the last of our processors alone, so that two sizes are not measured on two. Left free, one size
    took twice its time in some calls while the other did not; why was not found."""
    free = os.sched_getaffinity(0)
    os.sched_setaffinity(0, {max(free)})
    try:
        return subprocess.Popen(words, **how)
    finally:
        os.sched_setaffinity(0, free)


class Held(Program):
    """The program on that processor."""

    def begun(self, *words, stdin=subprocess.PIPE, stdout=subprocess.PIPE):
        return held([self.path, *words], stdin=stdin, stdout=stdout)


def fill_caches():
    """Reads other memory there. A few objects that were just sent would be in the processor's caches whole, and ten
    times as many would not; after this neither are."""
    if held(OTHERS).wait():
        sys.exit("the caches were not filled")
