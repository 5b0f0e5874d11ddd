"""`forkhost-move TENANT FROM TO`: a tenant goes from one host's folder to another's, while both are stopped.

First it is made beside the target, as a folder of a host that has this tenant alone, and judged there. Then its objects go to
the target, then the target's state has it, which one rename decides, and then the source lets it go. So whenever the process
ends, the tenant is in the source, or in both alike; then the same command goes on."""
import os
from hashlib import sha256
from shutil import rmtree

from forkhost_client.address import is_tenant
from forkhost_client.faults import Fatal
from forkhost_client.frames import bytes_of
from forkhost_client.programs import HELP, leave_signals, tell

from .folder import Folder
from .judging import judge
from .state import seen, spelled

USAGE = "usage: forkhost-move TENANT FROM TO, with the folders of two hosts that are stopped"
DONE, FAULT = 0, 2
# The most tenants of a host (docs/FORMATS.md, "Limits").
MOST = 64
# In the target, where no host looks.
BESIDE = "moving"


class Move:
    def __init__(self, tenant: str, source: Folder, target: Folder):
        self.tenant, self.source, self.target = tenant, source, target
        self.key = bytes_of(tenant)

    def carry_out(self) -> None:
        try:
            self.source.take()
            self.target.take()
            # A move that was killed left it.
            rmtree(self.target.inside(BESIDE), ignore_errors=True)
            block = self.source.state().block(self.key)
            if block is None:
                raise Fatal(f"'{self.source.path}' has no tenant '{self.tenant}'")
            self.come(block)
            self.go()
        finally:
            self.source.leave()
            self.target.leave()
        judge(self.source.path)

    def come(self, block: bytes) -> None:
        """The target has the tenant, and is sound. One that is there alike is left by a move that ended here."""
        before = self.target.text()
        blocks = self.target.state().blocks
        there = blocks.get(self.key)
        if there not in (None, block):
            raise Fatal(f"'{self.target.path}' has another tenant '{self.tenant}'")
        if there is None and len(blocks) >= MOST:
            raise Fatal(f"'{self.target.path}' has {MOST} tenants, and a host has no more")
        if there is None:
            self.bring(block)
            self.target.put(spelled({**blocks, self.key: block}))
        self.target.leave()
        try:
            judge(self.target.path)
        except Fatal:
            self.undo(before)
            raise

    def undo(self, before: bytes) -> None:
        """The target's state is as it was."""
        self.target.hold()
        self.target.put(before)

    def bring(self, block: bytes) -> None:
        """All objects that the tenant sees are in the target, once they are judged beside it."""
        path = self.target.inside(BESIDE)
        os.mkdir(path, 0o700)
        try:
            beside = Folder(path)
            beside.store = type(self.target.store)(path)
            self.fill(beside, block)
        finally:
            rmtree(path, ignore_errors=True)

    def fill(self, beside: Folder, block: bytes) -> None:
        names = seen(block)
        self.source.store.load(names)
        self.target.store.load(names)
        lacking = [name for name in names if not self.target.store.has(name)]
        beside.store.write(self.objects(lacking))
        count = beside.store.count()
        known = set(names) - set(lacking)
        beside.store.write(self.objects([name for name in names if name in known]))
        beside.put(spelled({self.key: block}))
        judge(beside.path)
        self.target.store.take(beside.store, count, lacking)

    def objects(self, names: list):
        """The files of these objects, as the source has them."""
        for name in names:
            data = self.source.store.read(name)
            if data is None or sha256(data).hexdigest() != name:
                raise Fatal(f"'{self.source.path}' has no whole file of {name}")
            yield name, data

    def go(self) -> None:
        """The source has the tenant no more. Its objects stay there until they are swept."""
        blocks = self.source.state().blocks
        self.source.put(spelled({tenant: block for tenant, block in blocks.items() if tenant != self.key}))


def moved(words: list) -> None:
    if len(words) != 3 or not is_tenant(words[0]):
        raise Fatal(USAGE)
    tenant, source, target = words
    if os.path.realpath(source) == os.path.realpath(target):
        raise Fatal(f"'{source}' and '{target}' are one folder")
    os.umask(0o077)
    Move(tenant, Folder(source), Folder(target)).carry_out()


def main(words: list) -> int:
    leave_signals()
    try:
        if words == HELP:
            print(USAGE)
        else:
            moved(words)
        return DONE
    except Fatal as fault:
        tell("forkhost-move", str(fault))
    except OSError as fault:
        place = f": '{fault.filename}'" if fault.filename else ""
        tell("forkhost-move", f"{fault.strerror or fault}{place}")
    return FAULT
