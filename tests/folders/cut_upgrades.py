"""Upgrades that are killed: at any moment, and at each call that changes the folder."""
import os
import random
import shutil
import subprocess
import time

from folders.before import LEFT, NEW, OLD, copy, show_all
from folders.injected_calls import CALLS, some_of
from folders.upgrades import STATE_2, upgraded
from lib.program import PATIENCE, Ran, failed, sound, without_cause

KILLS = 60
# Those of the fixture's journal.
REQUESTS = 11


class Upgrades:
    """Upgrades of copies of one folder, which do not end as they should."""

    def __init__(self, checks, program, work):
        self.checks, self.program, self.work, self.number = checks, program, work, 0

    def copy(self):
        self.number += 1
        return copy(self.work, str(self.number))

    def judge(self, label, folder):
        """The old state is there with its journal, or the new one, and a start shows all that was acknowledged."""
        state = folder.state()
        self.checks.same(f"{label}: the state", True, state in (OLD, NEW))
        left = REQUESTS if state == OLD else LEFT
        self.checks.same(f"{label}: requests", left, folder.again())
        self.checks.same(f"{label}: check", sound(left), self.program.checked(folder.path))
        self.checks.same(f"{label}: what was being written", [], folder.parts())
        show_all(self.checks, self.program, label, folder)
        shutil.rmtree(folder.path)

    def kill_within(self, label, wait):
        """An upgrade that is killed some time after its start, and another one."""
        folder = self.copy()
        for _ in range(2):
            child = self.program.begun("upgrade", "--dir", folder.path)
            time.sleep(wait)
            child.kill()
            child.communicate()
        self.judge(label, folder)

    def traced(self, folder, calls, *how):
        """An upgrade in which calls meet this, and what comes of it; what is traced."""
        path = os.path.join(self.work, "calls")
        words = ["strace", "-f", "-qq", "-o", path, "-e", f"trace={calls}", *how]
        words += [self.program.path, "upgrade", "--dir", folder.path]
        ran = subprocess.run(words, capture_output=True, timeout=PATIENCE)
        with open(path, encoding="utf-8", errors="replace") as file:
            return Ran(ran.returncode, ran.stdout, without_cause(ran.stderr)), sum("(" in line for line in file)

    def count(self, calls):
        folder = self.copy()
        _, found = self.traced(folder, calls)
        shutil.rmtree(folder.path)
        return found

    def inject(self, name, calls):
        """The process is killed at each call, and each call fails: that is reported, or does no harm."""
        for at in some_of(self.count(calls)):
            folder = self.copy()
            self.traced(folder, calls, "-e", f"inject={calls}:signal=SIGKILL:when={at}")
            self.judge(f"an upgrade killed at {name} {at}", folder)
            if name in ("rename", "sync", "mkdir", "unlink"):
                folder = self.copy()
                ran, _ = self.traced(folder, calls, "-e", f"inject={calls}:error=EIO:when={at}")
                faults = [STATE_2, failed("store"), failed("state not saved")]
                self.checks.same(f"an upgrade whose {name} {at} fails, {ran}", True, ran in faults)
                self.judge(f"an upgrade whose {name} {at} fails", folder)


def show_killed_upgrades(checks, program, work):
    """At whichever moment an upgrade is killed, nothing that was acknowledged is lost."""
    upgrades, chance = Upgrades(checks, program, work), random.Random(17)
    folder, begun = upgrades.copy(), time.monotonic()
    checks.same("an upgrade that is not killed", STATE_2, upgraded(program, folder))
    took = time.monotonic() - begun
    for number in range(KILLS):
        upgrades.kill_within(f"kill {number} of an upgrade", chance.uniform(0, took))


def show_injected_upgrades(checks, program, work):
    """By strace an upgrade is killed at each call that changes the folder, and each such call fails."""
    if not shutil.which("strace"):
        raise OSError("there is no strace, by which calls are injected")
    upgrades = Upgrades(checks, program, work)
    for name, calls in CALLS.items():
        upgrades.inject(name, calls)
