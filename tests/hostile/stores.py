"""A folder of five hundred objects that two tenants see in part, made by hand."""
import os
import random
import shutil

from folders.asking import History
from folders.state_text import Repository, Tenant, spelled
from hostile.runs import give
from lib.folder import Folder
from lib.objects import stored

ALICE, BOB = b"alice", b"bob"
OBJECTS, SPARE, GREAT = 500, 40, 8
LIMIT = 10_000_000


class Store:
    """What is in the folder, and who sees what of it."""

    def __init__(self, work):
        chance = random.Random(20)
        self.history = History(chance, 110)
        great = [self.history.add(b"blob", chance.randbytes(70_000 + number)) for number in range(GREAT)]
        self.spare = {self.history.add(b"blob", b"spare %d\n" % number) for number in range(SPARE)}
        while len(self.history.objects) < OBJECTS:
            self.history.add(b"blob", chance.randbytes(chance.randint(1, 900)))
        self.objects = self.history.objects
        self.names = sorted(self.objects)
        alices = [name for name in self.names if name not in self.spare]
        bobs = sorted(self.history.closure(self.history.tips[40]) | set(great[:2]))
        self.tips = {ALICE: self.history.tips[-1], BOB: self.history.tips[40]}
        self.seen = {ALICE: set(alices), BOB: set(bobs)}
        self.order = alices + bobs
        self.files = {name: stored(*self.objects[name]) for name in self.names}
        self.base = Folder(os.path.join(work, "base"))
        for name, data in self.files.items():
            self.base.keep(name, data)
        self.tenants = [self.tenant(who) for who in (ALICE, BOB)]
        self.text = spelled(self.tenants)
        self.base.set_state(self.text)

    def tenant(self, who):
        references = {b"refs/heads/a": self.tips[who], b"refs/tags/b": sorted(self.seen[who])[0]}
        return Tenant(who, LIMIT, [Repository(b"r", references)], sorted(self.seen[who]))

    def copy(self, path):
        """The folder made again, for the user that runs the program."""
        folder = Folder(shutil.copytree(self.base.path, path))
        give(path)
        return folder

    def is_seen(self, name):
        return any(name in names for names in self.seen.values())

    def first(self, names):
        """The one of these that comes first in the state's text, or None."""
        return next((name for name in self.order if name in names), None)
