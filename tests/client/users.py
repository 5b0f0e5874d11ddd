"""Many users of one host at once."""
import time

from lib.making import commit, line
from lib.world import World, finished

USERS = 20
SLOWER = b"[rejected] (fetch first)"


def took(begun):
    return time.monotonic() - begun


def cloned(world, number):
    """The seconds that a clone takes while nobody else does anything."""
    begun = time.monotonic()
    world.succeeds(f"clone {number}, alone", world.git(None, "clone", "-q", world.url("r"), f"one{number}"))
    return took(begun)


def pushed(world, number):
    """The same of a push of one commit."""
    copy = f"one{number}"
    commit(world, copy, f"of {number}", world.name(copy, "HEAD"))
    begun = time.monotonic()
    world.succeeds(f"push {number}, alone", world.git(copy, "push", "-q", "origin", f"HEAD:refs/heads/b{number}"))
    return took(begun)


def show_users(checks, program, folder):
    """Each of 20 clones and 20 pushes at once ends as it does alone, but for a push that another one was faster than; and
    all of them take hardly longer than one after another."""
    world = World(checks, program.with_words(serve=("--at-once", "64")), folder)
    world.init("alice", "r")
    world.repository("source")
    line(world, "source", *(f"of all {number}" for number in range(10)))
    world.succeeds("the first push", world.git("source", "push", "-q", world.url("r"), "main"))
    own = sum(one(world, number) for one in (cloned, pushed) for number in range(USERS))
    begun = time.monotonic()
    clones = [world.begun("git", "clone", "-q", world.url("r"), f"many{number}") for number in range(USERS)]
    pushes = [world.begun("git", "push", "--porcelain", "origin", "HEAD:main", at=f"one{number}") for number in range(USERS)]
    clones, pushes = [[finished(child) for child in children] for children in (clones, pushes)]
    seconds = took(begun)
    for number, ran in enumerate(clones):
        world.succeeds(f"clone {number} of many", ran)
    for number, ran in enumerate(pushes):
        checks.holds(f"push {number} of many", None if ran.status == 0 or SLOWER in ran.output else ran)
    checks.same("one of them is there", True, any(ran.status == 0 for ran in pushes))
    checks.holds("they take hardly longer than alone", None if seconds <= 1.5 * own else f"{seconds:.1f} seconds, and not {own:.1f}")
    world.host.ends_well(checks, "after many users")
