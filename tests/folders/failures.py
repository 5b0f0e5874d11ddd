"""Runs over a store that fails at each of its calls in turn: what they answer and keep."""
import os
import shutil

from folders.cases import B, C, D, OBJECTS
from folders.failing import KINDS, Failing
from folders.sweeps import COUNT, HOST
from lib.folder import Folder
from lib.live import Live
from lib.objects import name_of, record
from lib.program import done, sound

ALICE, BOB = b"alice", b"bob"
TENANTS = ["alice=200000", "bob=200000"]
LONG = (b"blob", b"long\n" * 14_000)
L = name_of(*LONG)
NAMES = [*OBJECTS, L]
RECORDS = b"".join(record(*thing) for thing in OBJECTS.values())
PUSH = b"push r\ncreate refs/heads/main %s\n\n" % D + RECORDS
BODY = PUSH.partition(b"\n")[2]
CUTS = (0, len(BODY) // 3, 2 * len(BODY) // 3, len(BODY))
PIECES = [b"part\n" + BODY[at:end] for at, end in zip(CUTS, CUTS[1:])]
COLLECT, CENSUS = (HOST, b"collect\n"), (HOST, b"census\n")
INITS = [(ALICE, b"init r\n"), (BOB, b"init r\n")]
GONE = b"update-refs r\ndelete refs/heads/main\n"


def cat(name):
    return b"cat-file %s\n" % name


ROWS = {
    "an upload in parts": [
        *INITS,
        *(turn for piece in PIECES for turn in ((ALICE, piece), COLLECT)),
        (ALICE, b"part-end r\n"),
        *((ALICE, cat(name)) for name in OBJECTS),
        COLLECT,
        CENSUS,
    ],
    "two holders": [
        *INITS,
        *((who, PUSH) for who in (ALICE, BOB)),
        *(turn for who in (ALICE, BOB) for turn in ((who, GONE), (who, b"prune\n"), (BOB, cat(C)), COLLECT, CENSUS)),
    ],
    "an offer": [
        *INITS,
        *((ALICE, asked) for asked in (PUSH, b"offer r bob\n", GONE, b"prune\n")),
        COLLECT,
        (BOB, b"fork-offer alice r s\n"),
        *((who, cat(C)) for who in (ALICE, BOB)),
        *((ALICE, asked) for asked in (b"offer r zoe\n", b"withdraw r bob\n", b"prune\n")),
        COLLECT,
        (BOB, b"fork-offer alice r t\n"),
        *((BOB, asked) for asked in (cat(D), b"drop s\n", b"prune\n", cat(B))),
        COLLECT,
        CENSUS,
    ],
    "pushes": [
        *INITS,
        (ALICE, b"push r\n\n" + record(*LONG)),
        (BOB, b"push r\n\n" + record(*LONG) + record(*OBJECTS[B])),
        (ALICE, b"push r\n\n" + record(*OBJECTS[B])),
        *((who, cat(L)) for who in (ALICE, BOB)),
        (ALICE, b"prune\n"),
        *((HOST, b"sweep %d\n" % most) for most in (1, 1, 3)),
        (BOB, cat(L)),
        (BOB, b"prune\n"),
        *((HOST, b"sweep %d\n" % most) for most in (1, 1, 3, 9)),
        CENSUS,
    ],
}


def shown(live):
    """What both tenants see: use, references, offers, objects, and whether an upload is open."""
    asks = [b"quota\n", b"repos\n", b"for-each-ref r\n", b"for-each-ref s\n", b"offers\n", *map(cat, NAMES), b"push r\n\n"]
    return [live.asked(who, ask) for who in (ALICE, BOB) for ask in asks]


def is_count(who, told):
    return who == HOST and COUNT.fullmatch(told) is not None


class Run:
    """One history over a folder of its own, with the calls that its fuse lets fail."""

    def __init__(self, checks, program, folder, label):
        self.checks, self.program, self.folder, self.label = checks, program, folder, label
        self.faults = 0
        self.live = Live(program, "--dir", folder.path, *TENANTS)

    def aside(self):
        return self.program.fuse.aside(lambda: shown(self.live))

    def turn(self, who, asked, wanted):
        """Asks until no failure is reported; a failure leaves everything as it was."""
        label = f"{self.label}: {asked[:16]!r}"
        before = self.aside()
        told = self.live.asked(who, asked)
        for _ in range(4):
            if told != b"host store\n":
                break
            self.faults += 1
            self.checks.same(f"{label}: what is seen after a failure", before, self.aside())
            told = self.live.asked(who, asked)
        right = told == wanted or (is_count(who, told) and is_count(who, wanted))
        self.checks.same(f"{label}: its reply", wanted, wanted if right else told)

    def census(self):
        """How many objects are left after a whole round."""
        self.live.asked(*COLLECT)
        return self.live.asked(*CENSUS)


def told_without_failure(program, folder, turns):
    """The replies, what is seen at the end, and how many objects are left."""
    live = Live(program, "--dir", folder.path, *TENANTS)
    told = [live.asked(*turn) for turn in turns]
    seen = shown(live)
    live.asked(*COLLECT)
    return told, seen, live.asked(*CENSUS), live.ended()


def show_one(checks, program, folder, label, turns, wanted, fuse):
    """One run with a fuse that is set after the start. How many calls failed, and how many faults were told."""
    told, seen, census, _ = wanted
    run = Run(checks, program, folder, label)
    run.live.asked(*CENSUS)
    program.fuse.set(*fuse)
    for (who, asked), reply in zip(turns, told):
        run.turn(who, asked, reply)
    failed = program.fuse.failed()
    program.fuse.off()
    checks.same(f"{label}: what is seen at the end", seen, shown(run.live))
    checks.same(f"{label}: what is left", census, run.census())
    checks.same(f"{label}: its end", done(), run.live.ended())
    checks.same(f"{label}: check", sound(), program.checked(folder.path))
    again = Live(program, "--dir", folder.path)
    checks.same(f"{label}: after a start", seen, shown(again))
    checks.same(f"{label}: the last end", done(), again.ended())
    return failed, run.faults


def show_failures(checks, given, work):
    """Each call of each kind fails in turn, alone and with the next one, until a run meets no failure."""
    program = Failing(given, work)
    given.running = program.running
    for row, turns in ROWS.items():
        wanted = told_without_failure(program, Folder(os.path.join(work, row)), turns)
        checks.same(f"{row}: its end", done(), wanted[3])
        told = [show_kind(checks, program, work, row, wanted, kind, fails) for kind in KINDS for fails in (1, 2)]
        # A row whose objects are new opens, writes and renames, and looks at nothing.
        checks.same(f"{row}: faults are told in many runs", True, sum(map(bool, told)) >= len(KINDS) - 2)
    program.stop()


def show_kind(checks, program, work, row, wanted, kind, fails):
    """Each call of a kind fails in turn, until a run meets no failure. How many faults were told."""
    told = 0
    for passes in range(1000):
        folder = Folder(os.path.join(work, "run"))
        label = f"{row}: {kind}, {passes} pass, {fails} fail"
        met, faults = show_one(checks, program, folder, label, ROWS[row], wanted, (kind, passes, fails))
        shutil.rmtree(folder.path)
        told += faults
        if not met:
            break
    return told


def ended_well(told):
    return told.status == 0 or told.fault in (b"forkhost: store\n", b"forkhost: state not saved\n")


def show_starts(checks, given, work):
    """The end of a host and its next start over a store that fails: asked again without failures, all is there."""
    program = Failing(given, work)
    for row, turns in ROWS.items():
        for kind in KINDS:
            passes = 0
            while passes < 4000:
                label = f"{row}, its end and start: {kind}, {passes} pass"
                folder = Folder(os.path.join(work, "run"))
                live = Live(program, "--dir", folder.path, *TENANTS)
                for turn in turns[:-2]:
                    live.asked(*turn)
                seen = shown(live)
                program.fuse.set(kind, passes, 2)
                told = [live.ended(), program.ran("run", "--dir", folder.path)]
                met = program.fuse.failed()
                program.fuse.off()
                checks.same(f"{label}: how they end", [True, True], list(map(ended_well, told)))
                again = Live(program, "--dir", folder.path)
                checks.same(f"{label}: what is seen", seen, shown(again))
                checks.same(f"{label}: its end", done(), again.ended())
                checks.same(f"{label}: check", sound(folder.again()), program.checked(folder.path))
                shutil.rmtree(folder.path)
                if not met:
                    break
                passes += 1 if passes < 8 else max(1, passes // 3)
    program.stop()
