"""The built program, run with words and an input."""
import os
import re
import subprocess
import sys
from typing import NamedTuple

from lib.places import BUILT
from lib.waiting import PATIENCE

# What a session of some thousands of requests may take, in seconds.
LONG = 1800
# What may follow these faults on standard error. `causes.py` looks at it.
CAUSE = re.compile(rb"\A(forkhost: (?:store|state unreadable)\n)forkhost: [^\n]+: [^\n]*\n\Z")


class Ran(NamedTuple):
    status: int
    output: bytes
    fault: bytes


def without_cause(fault):
    """The fault alone, if its cause follows it."""
    return CAUSE.sub(rb"\1", fault)


def ended(child, given=b"", patience=PATIENCE):
    """How a process ends after these last bytes of its input, causes aside; one that does not end is killed."""
    try:
        output, fault = child.communicate(given, timeout=patience)
    except subprocess.TimeoutExpired:
        child.kill()
        output, fault = child.communicate()
    return Ran(child.returncode, output, without_cause(fault))


def done(output=b""):
    """A run that ended well."""
    return Ran(0, output, b"")


def failed(fault, output=b""):
    """A run that ended with this fault."""
    return Ran(1, output, b"forkhost: " + fault.encode() + b"\n")


class Program:
    def __init__(self, path, more=None):
        self.path, self.running, self.more = os.path.abspath(path), [], more or {}

    def with_words(self, **more):
        """The same program, which is given these words too behind those of a command."""
        return Program(self.path, more)

    def packed(self):
        """The same program, which keeps the objects of new folders in segments."""
        return self.with_words(run=("--packed",), serve=("--packed",))

    def given(self, *words):
        """What is run for the words of a command."""
        return [self.path, *words, *self.more.get(words[0] if words else "", ())]

    def ran(self, *words, given=b"", patience=PATIENCE):
        return ended(self.begun(*words), given, patience)

    def begun(self, *words, stdin=subprocess.PIPE, stdout=subprocess.PIPE):
        """The program with pipes, or with what is given in their place, still running."""
        child = subprocess.Popen(self.given(*words), stdin=stdin, stdout=stdout, stderr=subprocess.PIPE)
        self.running = [other for other in self.running if other.poll() is None] + [child]
        return child

    def stop(self):
        """Kills what still runs."""
        for child in self.running:
            if child.poll() is None:
                child.kill()
                child.wait()

    def checked(self, folder):
        return self.ran("check", "--dir", folder)


def given_program():
    """The program of the command line, or the built one."""
    return Program(sys.argv[1] if len(sys.argv) > 1 else BUILT)


def sound(again=0):
    """A check that finds all right, where a start does this many requests again."""
    return Ran(0, b"sound\n", b"journal %d\n" % again if again else b"")


def of_verdict(text, again=0):
    """What `check` does where it finds this."""
    return sound(again) if text == "sound" else failed(text)
