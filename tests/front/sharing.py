"""A second tenant names what the first has, by the front end, and reads what a host without the first would say."""
import os

from client.tenants import BOTH, Bob, alice
from lib.program import Ran

KINDS = ("commit", "blob")


class Neighbour(Bob):
    """Bob, who has Git and the front end, and no socket of the host.

    If Git and ssh both say something, either may be first."""

    def does(self, at, *words, given=b""):
        super().does(at, *words, given=given)
        for number, one in enumerate(self.told):
            if isinstance(one[1], Ran):
                lines = b"".join(sorted(one[1].fault.splitlines(True)))
                self.told[number] = (one[0], one[1]._replace(fault=lines), *one[2:])

    def asks(self, *words, given=b""):
        """By hand: over SSH where that is what is shown, and where the request has no body."""
        if not given:
            self.told.append((words, self.world.by_hand("bob", *words), self.world.kept("r", "bob")))


def caches(world, tenant):
    """The caches of a tenant, one of which is there at least."""
    found = [entry.path for entry in os.scandir(os.path.join(world.caches, tenant)) if entry.is_dir()]
    world.checks.same(f"{tenant} has a cache", True, found != [])
    return found


def show_sharing(world):
    """With alice beside him and without her, at one address: the same to the byte."""
    checks = world.checks
    names = {kind: name for kind, name in alice(world).items() if kind in KINDS}
    world.succeeds("alice's cache has it", world.git(None, "ls-remote", world.url("secret")))
    checks.same("it has", True, names["commit"] in world.in_cache("secret"))
    beside = Neighbour(world, names).tries()
    hers = set(names.values()) & {name for path in caches(world, "bob") for name in world.objects(path)}
    checks.same("no cache of bob's has an object of hers", set(), hers)
    world.host.ends_well(checks, "with alice")
    world.remove("host")
    world.remove("caches")
    world.host.begin(BOTH[1])
    alone = Neighbour(world, names).tries()
    checks.same("as many things are told", len(alone), len(beside))
    for number, (wanted, told) in enumerate(zip(alone, beside)):
        checks.same(f"bob, {number}: {wanted[0]}", wanted, told)
    tried = [one[1] for one in beside if hasattr(one[1], "status")]
    checks.same("nearly all of it is refused", True, sum(ran.status != 0 for ran in tried) > len(tried) // 2)
    checks.same("and something is not", True, any(ran.status == 0 for ran in tried))
    world.host.ends_well(checks, "without alice")
