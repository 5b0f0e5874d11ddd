"""Offers between tenants over a folder: what there is after each request is there again after a start or a kill."""
import os

from folders.cases import commit
from folders.killing import answered
from folders.state_text import Offer, read
from folders.sweeps import HOST
from lib.folder import Folder
from lib.frames import frame, framed, frames
from lib.live import Live
from lib.objects import name_of, record, whole
from lib.program import done, sound

ALICE, BOB, NOBODY = b"alice", b"bob", b"nobody"
OK = b"ok\n"
TREE = (b"tree", b"")
FIRST = (b"commit", commit(name_of(*TREE)))
C = name_of(*FIRST)
MAIN = b"refs/heads/main"
OFFER = (ALICE, b"offer r bob\n", OK)
TAKE = b"fork-offer alice r s\n"
MADE = [
    (ALICE, b"init r\n", OK),
    (ALICE, b"push r\ncreate %s %s\n\n" % (MAIN, C) + record(*TREE) + record(*FIRST), OK),
    OFFER,
    (BOB, b"offers\n", b"ok\nfrom alice r\n"),
    (BOB, b"cat-file %s\n" % C, b"no missing %s\n" % C),
    (ALICE, b"update-refs r\ndelete %s\n" % MAIN, OK),
    (ALICE, b"prune\n", OK),
    (ALICE, b"quota\n", b"ok\n256 1000\n"),
]
TAKEN = [
    (BOB, TAKE, OK),
    (BOB, b"quota\n", b"ok\n256 1000\n"),
    (BOB, b"for-each-ref s\n", b"ok\n%s commit\t%s\n" % (C, MAIN)),
    (ALICE, b"withdraw r bob\n", OK),
    (ALICE, b"prune\n", OK),
    (ALICE, b"quota\n", b"ok\n0 1000\n"),
    (HOST, b"collect\n", b"ok\n0\n"),
    (BOB, b"cat-file %s\n" % C, OK + record(*FIRST)),
    (BOB, b"fork-offer alice r t\n", b"no no-offer alice/r\n"),
    (ALICE, b"offer r nobody\n", OK),
    (ALICE, b"offer r nobody\n", b"no offer-exists nobody/r\n"),
]
REFUSED = [
    (BOB, TAKE, b"no over-quota\n"),
    (BOB, b"quota\n", b"ok\n0 255\n"),
    (BOB, b"for-each-ref s\n", b"no no-repository s\n"),
    (BOB, b"offers\n", b"ok\nfrom alice r\n"),
]
ROWS = {"1000": MADE + TAKEN, "255": MADE + REFUSED}
# What alice has offered after a request.
STANDS = {
    OFFER[1]: [Offer(BOB, b"r", {MAIN: C}, MAIN)],
    b"withdraw r bob\n": [],
    b"offer r nobody\n": [Offer(NOBODY, b"r", {}, MAIN)],
}
# Who has the name to which an offer was made, when it stood there already.
LATER = [
    (NOBODY, b"offers\n", b"ok\nfrom alice r\n"),
    (NOBODY, TAKE, OK),
    (NOBODY, b"head s\n", b"ok\n%s\n" % MAIN),
    (NOBODY, b"for-each-ref s\n", OK),
    (ALICE, b"offers\n", b"ok\nto nobody r\n"),
]


def asked(turns):
    return frames([turn[:2] for turn in turns])


def told(turns):
    return done(b"".join(framed(turn[2]) for turn in turns))


def offered(folder):
    """What the state says that alice has offered, and that nobody else has."""
    tenants, _ = read(folder.state())
    return {tenant.name: tenant.offers for tenant in tenants if tenant.offers}


def torn(folder):
    return [name for name, file in folder.files().items() if not whole(name, file)]


def show_later(checks, program, label, folder):
    """A tenant that is added later finds the offer to its name."""
    ran = program.ran("run", "--dir", folder.path, "nobody=0", given=asked(LATER))
    checks.same(f"{label}: a tenant that is added", told(LATER), ran)
    checks.same(f"{label}: check after it", sound(), program.checked(folder.path))


def show_restarted_offers(checks, program, work):
    """Each request has a run of its own, and the state between two of them has the offers that stand."""
    for limit, turns in ROWS.items():
        folder, stand = Folder(os.path.join(work, limit)), []
        words = ["alice=1000", f"bob={limit}"]
        for number, turn in enumerate(turns):
            label = f"with {limit} bytes, {number}, {turn[1][:20]!r}"
            ran = program.ran("run", "--dir", folder.path, *words, given=asked([turn]))
            checks.same(label, told([turn]), ran)
            stand, words = STANDS.get(turn[1], stand), []
            checks.same(f"{label}: offers of the state", {ALICE: stand} if stand else {}, offered(folder))
            checks.same(f"{label}: check", sound(), program.checked(folder.path))
            checks.same(f"{label}: files that are torn", [], torn(folder))
    show_later(checks, program, "restarted", Folder(os.path.join(work, "1000")))


def show_killed_offers(checks, program, work):
    """The host is killed after each request, and what it acknowledged is done again by the next start."""
    for limit, turns in ROWS.items():
        folder, words = Folder(os.path.join(work, limit)), ["alice=1000", f"bob={limit}"]
        for number, turn in enumerate(turns):
            label = f"killed, with {limit} bytes, {number}, {turn[1][:20]!r}"
            live = Live(program, "--dir", folder.path, *words)
            reply, does = answered(live, *turn[:2])
            checks.same(label, turn[2], reply)
            live.child.kill()
            live.child.communicate()
            words = []
            checks.same(f"{label}: the journal", frame(*turn[:2]) if does else b"", folder.journal())
            checks.same(f"{label}: check", sound(int(does)), program.checked(folder.path))
            checks.same(f"{label}: files that are torn", [], torn(folder))
    show_later(checks, program, "killed", Folder(os.path.join(work, "1000")))
    show_one_journal(checks, program, Folder(os.path.join(work, "one")))


def show_one_journal(checks, program, folder):
    """A whole row is in one journal, beside an open upload, and is repeated at once."""
    live = Live(program, "--dir", folder.path, "alice=1000", "bob=1000")
    kept = []
    for turn in [(BOB, b"part\nab", OK), *MADE, *TAKEN]:
        reply, does = answered(live, *turn[:2])
        checks.same(f"one after another, {turn[1][:20]!r}", turn[2], reply)
        kept += [turn] if does else []
    live.child.kill()
    live.child.communicate()
    checks.same("what the journal has", asked(kept), folder.journal())
    checks.same("check of it", sound(len(kept)), program.checked(folder.path))
    looks = [turn for turn in TAKEN[-3:] if turn[1] != b"offer r nobody\n"]
    looks += [(ALICE, b"offers\n", b"ok\nto nobody r\n"), (BOB, b"part-drop\n", OK), (BOB, b"quota\n", b"ok\n256 1000\n")]
    checks.same("a start after it", told(looks), program.ran("run", "--dir", folder.path, given=asked(looks)))
    checks.same("offers of the state", {ALICE: STANDS[b"offer r nobody\n"]}, offered(folder))


def show_upgraded_offers(checks, program, work):
    """An upgrade keeps the offers of a state and of its journal, and what they reach."""
    folder = Folder(os.path.join(work, "kept"))
    turns = [*MADE[:3], (ALICE, b"init q\n", OK), (ALICE, b"offer q bob\n", OK)]
    ran = program.ran("run", "--dir", folder.path, "alice=1000", "bob=1000", given=asked(turns))
    checks.same("offers are made", told(turns), ran)
    live = Live(program, "--dir", folder.path)
    for payload in (b"withdraw q bob\n", b"drop r\n", b"prune\n", b"offer q zoe\n"):
        checks.same(f"{payload!r}", OK, live.asked(ALICE, payload))
    live.child.kill()
    live.child.communicate()
    checks.same("an upgrade", done(b"state 2\n"), program.ran("upgrade", "--dir", folder.path))
    wanted = {ALICE: [*STANDS[OFFER[1]], Offer(b"zoe", b"q", {}, MAIN)]}
    checks.same("offers of the state", wanted, offered(folder))
    checks.same("check after it", sound(), program.checked(folder.path))
    ran = program.ran("run", "--dir", folder.path, given=asked(TAKEN[:3]))
    checks.same("a start after it", told(TAKEN[:3]), ran)
