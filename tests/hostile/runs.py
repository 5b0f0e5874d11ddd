"""The program, run by a user who has no rights but a file's own, and given up on where it does not end."""
import os
import shutil
import subprocess

from lib.program import Program, Ran, without_cause

NOBODY = 65534
PATIENCE = 10
HANGS = Ran(-9, b"", b"it does not end")


class Hostile(Program):
    """The program as nobody runs it. What hangs once under a label is not tried again under it."""

    def __init__(self, path):
        super().__init__(path)
        self.hung, self.who = set(), {}

    def settle(self, work):
        """If this user is root, the user nobody runs a copy of the program, and owns the folder to work in."""
        if os.geteuid() != 0:
            return
        home = os.path.dirname(work)
        os.chmod(home, 0o755)
        if not self.who:
            self.path = shutil.copy(self.path, os.path.join(home, "program"))
            os.chmod(self.path, 0o755)
            self.who = {"user": NOBODY, "group": NOBODY, "extra_groups": []}
        give(work)

    def begun(self, *words, stdin=subprocess.PIPE, stdout=subprocess.PIPE):
        pipe = subprocess.PIPE
        child = subprocess.Popen([self.path, *words], stdin=stdin, stdout=stdout, stderr=pipe, **self.who)
        self.running = [other for other in self.running if other.poll() is None] + [child]
        return child

    def tried(self, label, *words, given=b""):
        """How a run ends. One that hangs is killed, and one of a label that hung before is not begun."""
        if label in self.hung:
            return HANGS
        child = self.begun(*words)
        try:
            output, fault = child.communicate(given, timeout=PATIENCE)
        except subprocess.TimeoutExpired:
            child.kill()
            child.communicate()
            self.hung.add(label)
            return HANGS
        return Ran(child.returncode, output, without_cause(fault))


def settled(show):
    """A subject that is shown in a folder of the user who runs the program."""

    def shown(checks, program, work):
        program.settle(work)
        show(checks, program, work)

    shown.__name__ = show.__name__
    return shown


def give(path):
    """Gives a path, and all below it, to the user who runs the program."""
    if os.geteuid() != 0:
        return
    os.chown(path, NOBODY, NOBODY, follow_symlinks=False)
    for home, folders, files in os.walk(path):
        for name in folders + files:
            os.chown(os.path.join(home, name), NOBODY, NOBODY, follow_symlinks=False)
