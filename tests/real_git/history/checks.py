"""What is shown: the program's replies beside those that are wanted, and how many were as they should."""
import random

from lib.checks import Checks
from real_git.history.host import Host
from real_git.history.repository import Repository


class Shown(Checks):
    """What is shown, and by what: the host, in which `alice` has all of the repository's objects."""

    def __init__(self, program, work):
        super().__init__()
        self.repository = Repository(work)
        self.host = Host(program, ["alice", "stranger", *(f"heir{number}" for number in range(40))])
        self.chance = random.Random(7)
        self.work, self.reaches = work, {}

    def told(self, wanted, *words, who="alice"):
        """The reply to this query is this one, which is bytes after `ok` LF or the words of a refusal."""
        reply = b"ok\n" + wanted if isinstance(wanted, bytes) else f"no {wanted}\n".encode()
        self.same(f"{who}: {' '.join(words)}"[:300], reply, self.host.query(who, *words))

    def git_lines(self, *words):
        return self.repository.git.lines(*words)

    def some(self, items, most):
        return self.chance.sample(items, self.chance.randint(1, min(most, len(items))))


def lines_of(names):
    return "".join(f"{name}\n" for name in names).encode()


def with_signs(wanted, excluded):
    return [*wanted, *(f"^{item}" for item in excluded)]
