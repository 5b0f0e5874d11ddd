"""Where things are in a checkout. The clients' packages are looked for beside the tests' own."""
import os
import sys

TESTS = os.path.dirname(os.path.dirname(os.path.abspath(__file__)))
ROOT = os.path.dirname(TESTS)
CLIENTS = os.path.join(ROOT, "clients")
BUILT = os.path.join(ROOT, "crates/forkhost/out/forkhost")

# A folder in memory, where a sync costs nothing, is used if it has this much space.
MEMORY, SPACE = "/dev/shm", 1 << 30

sys.path.append(CLIENTS)


def in_memory():
    """Where folders of a test are made that asks nothing of a disk; None is the usual place."""
    if not os.path.isdir(MEMORY):
        return None
    there = os.statvfs(MEMORY)
    return MEMORY if there.f_bavail * there.f_frsize >= SPACE else None
