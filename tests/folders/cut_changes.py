"""Changes of tenants that are killed at random moments: the folder has what it had, or what the change makes of it."""
import os
import random
import shutil
import time

from folders.cases import OBJECTS, tenant
from folders.changed import ADD, LIMIT, MAIN, REMOVE, change, pushed
from folders.clients import ALICE, BOB
from folders.state_text import Tenant, spelled
from lib.folder import Folder, requests_in
from lib.program import done, failed, sound

KILLS = 15
BEFORE = [Tenant(ALICE, 10000, [], []), tenant(BOB, [], limit=1000)]
AFTER = tenant(ALICE, OBJECTS, [MAIN])
BOTH = [AFTER, BEFORE[1]]
# Each change, the state that it leaves, how many requests its journal has, and what another such change is answered.
CHANGES = {
    (ADD, "carol=77"): ([*BOTH, Tenant(b"carol", 77, [], [])], 2, failed("tenant carol is there already")),
    (LIMIT, "bob=5"): ([AFTER, tenant(BOB, [], limit=5)], 2, done()),
    (REMOVE, "bob"): ([AFTER], 1, failed("tenant bob is not there")),
}


def show_killed_changes(checks, program, work):
    """At whichever moment a change is killed, nothing that was acknowledged is lost, and the change is whole or not begun."""
    base, chance = pushed(program, os.path.join(work, "base")), random.Random(49)
    old = spelled(BEFORE)
    checks.same("the state before", old, base.state())
    for words, (tenants, left, again) in CHANGES.items():
        label, new = " ".join(words), spelled(tenants)
        folder, begun = Folder(shutil.copytree(base.path, os.path.join(work, words[0]))), time.monotonic()
        checks.same(label, done(), change(program, folder, *words))
        took = time.monotonic() - begun
        for number in range(KILLS):
            folder = Folder(shutil.copytree(base.path, os.path.join(work, f"{words[0]} {number}")))
            child = program.begun(words[0], "--dir", folder.path, words[1])
            time.sleep(chance.uniform(0, took))
            child.kill()
            child.communicate()
            state = folder.state()
            checks.same(f"{label}, killed {number}: the state", True, state in (old, new))
            count = 5 if state == old else left
            checks.same(f"{label}, killed {number}: check", sound(count), program.checked(folder.path))
            checks.same(f"{label}, killed {number}: requests", count, len(requests_in(folder.journal())))
            wanted = done() if state == old else again
            checks.same(f"{label}, killed {number}: once more", wanted, change(program, folder, *words))
            checks.same(f"{label}, killed {number}: the end", new, folder.state())
            shutil.rmtree(folder.path)
