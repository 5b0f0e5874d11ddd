"""A host that is down: the user reads that it cannot be reached, and the log has where it was looked for."""
from front.front import BYTES
from lib.making import line
from lib.program import Ran
from lib.watching import Watcher

SAID = "the host cannot be reached"


def show_down(world):
    """It is down before a request, and from the moment on at which a push is there."""
    checks = world.checks
    world.init("alice", "r")
    first, second = line(world, world.repository("source"), "one", "two")
    world.succeeds("a push", world.git("source", "push", "-q", world.url("r"), f"{first}:refs/heads/main"))
    show_down_at_push(world, second)
    socket = world.host.socket
    world.host.ends_well(checks, "after a host that goes away")
    world.logged()
    for words in (["ls-remote", world.url("r")], ["push", world.url("r"), "main"]):
        ran = world.git("source", *words)
        checks.same(f"{words[0]}: is told no path", (128, False), (ran.status, world.folder in ran.fault.decode()))
        checks.same(f"{words[0]}: is told", True, any(text in ran.fault.decode() for text in (SAID, "error: 503")))
        checks.same(f"{words[0]}: the log has it", [why(socket, "No such file or directory")], faults(world))
    show_down_by_hand(world, socket)


def show_down_at_push(world, tip):
    """The settings lead to no host once the front end has asked for what is there, before the hook asks."""
    seen, nowhere = [], world.path("nowhere")

    def meddle(asked, reply):
        seen.append(asked.split(" ")[0])
        if seen.count("head") == world.ASKED:
            world.set(BYTES, nowhere)
        return reply

    world.set(BYTES, Watcher(world.path("watched"), world.host.socket, meddle).path)
    world.logged()
    ran = world.git("source", "push", "--porcelain", world.url("r"), f"{tip}:refs/heads/main")
    rows = [row.split("\t")[2] for row in ran.output.decode().splitlines() if row.startswith("!")]
    world.checks.same("at a push: what is told", (1, [f"[remote rejected] ({SAID})"]), (ran.status, rows))
    world.checks.same("at a push: and no path", False, world.folder in ran.fault.decode())
    world.checks.same("at a push: the log has it", [why(nowhere, "No such file or directory")], faults(world))
    world.set(BYTES)
    world.succeeds("the next push", world.git("source", "push", "-q", world.url("r"), f"{tip}:refs/heads/main"))


def show_down_by_hand(world, socket):
    """Words for hand are for SSH alone."""
    if world.ASKED == 1:
        said = Ran(128, b"", f"forkhost: {SAID}\n".encode())
        world.checks.same("by hand", said, world.by_hand("alice", "quota"))
        world.checks.same("by hand: the log has it", [why(socket, "No such file or directory", "-")], faults(world))


def why(socket, text, repository="r"):
    return f"alice fault {repository} cannot reach a host at '{socket}': {text}"


def faults(world):
    return [" ".join(row) for row in world.logged() if row[1] == "fault"]
