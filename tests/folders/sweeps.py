"""Requests of the host's own at random, and what a collection leaves."""
import itertools
import re

from folders.state_text import read
from lib.frames import frame, replies
from lib.program import done, sound

HOST = b"@host"
COUNT = re.compile(rb"ok\n(0|[1-9][0-9]*)\n")


def host_turn(chance):
    """A slice of a sweep, a whole round, or a census. None of them changes what a tenant has."""
    slices = b"sweep %d\n" % chance.choice([0, 1, 4, 20, 1_048_576])
    return HOST, chance.choice([slices, slices, b"collect\n", b"census\n"])


def with_sweeps(chance, turns):
    """These turns, and turns of the host's own between them."""
    for turn in turns:
        yield turn
        if chance.random() < 0.3:
            yield host_turn(chance)


def plain(turns, answers):
    """The answers, each count for the host's own side without its number: what stands in the store that nobody has is
    not the same after a start."""
    askers = itertools.chain((who for who, _ in turns), itertools.repeat(None))
    return [b"a count" if who == HOST and COUNT.fullmatch(reply or b"") else reply for who, reply in zip(askers, answers)]


def of_tenants(turns, answers):
    """The answers to tenants."""
    return [reply for (who, _), reply in zip(turns, answers) if who != HOST]


def seen(folder):
    """The names of what tenants see, by the folder's state."""
    tenants, _ = read(folder.state())
    return sorted({name for tenant in tenants for name in tenant.seen})


def collected(program, folder):
    """What a run over the folder says that collects, and does nothing else."""
    ran = program.ran("run", "--dir", folder.path, given=frame(HOST, b"collect\n"))
    return b"".join(replies(ran.output)[0]), ran._replace(output=b"")


def show_collected(checks, program, folder, label):
    """A collection leaves the files of what tenants see and no others, and after it there is nothing to collect."""
    told, ended = collected(program, folder)
    checks.same(f"{label}: a collection ends", done(), ended)
    checks.same(f"{label}: a collection counts, {told!r}", True, COUNT.fullmatch(told) is not None)
    checks.same(f"{label}: what is left is what tenants see", seen(folder), sorted(folder.files()))
    checks.same(f"{label}: what was swept is let go", [], folder.swept())
    checks.same(f"{label}: another one", (b"ok\n0\n", done()), collected(program, folder))
    checks.same(f"{label}: check after it", sound(folder.again()), program.checked(folder.path))
