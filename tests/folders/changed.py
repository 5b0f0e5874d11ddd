"""Tenants that are added, limited and taken out while no host serves a folder, and what a start shows then."""
import os

from folders.cases import B, C, D, OBJECTS, USED, tenant
from folders.clients import ALICE, BOB, PUSH
from folders.journals import INIT, killed
from folders.state_text import Offer, Repository, Tenant, spelled
from folders.sweeps import HOST
from lib.folder import Folder
from lib.frames import frame, framed, frames
from lib.live import Live
from lib.objects import record
from lib.program import done, failed, sound

OK = b"ok\n"
MAIN = (b"refs/heads/main", D)
ADD, LIMIT, REMOVE = "add-tenant", "set-limit", "remove-tenant"


def change(program, folder, word, tenant):
    return program.ran(word, "--dir", folder.path, tenant)


def asked(program, folder, *turns):
    """What a start answers to these turns."""
    return program.ran("run", "--dir", folder.path, given=frames(turns))


def told(*replies):
    return done(b"".join(map(framed, replies)))


def pushed(program, path):
    """A folder whose journal has a push of alice's, and parts of uploads that are open, after a kill."""
    folder = Folder(path)
    live = Live(program, "--dir", folder.path, "alice=10000", "bob=1000")
    turns = [INIT, (ALICE, PUSH), (ALICE, b"part\nabc"), (BOB, b"part\nde"), (BOB, b"part\nf")]
    for turn in turns:
        live.asked(*turn)
    killed(live)
    return folder


def show_added(checks, program, work):
    """What the journal has is done first, and is in the new state; open uploads stay open."""
    folder = pushed(program, os.path.join(work, "kept"))
    checks.same("what a start would do again", sound(5), program.checked(folder.path))
    checks.same("a tenant is added", done(), change(program, folder, ADD, "carol=77"))
    alice = tenant(ALICE, OBJECTS, [MAIN])
    text = spelled([alice, tenant(BOB, [], limit=1000), Tenant(b"carol", 77, [], [])])
    checks.same("the state", text, folder.state())
    checks.same("its journal has the uploads", frames([(ALICE, b"part\nabc"), (BOB, b"part\ndef")]), folder.journal())
    checks.same("there is no other one", [os.path.basename(folder.journal_path())], folder.journals())
    checks.same("what was being written", [], folder.parts())
    checks.same("check", sound(2), program.checked(folder.path))
    turns = [(b"carol", b"quota\n"), (BOB, b"part-drop\n"), (ALICE, b"quota\n"), (b"dave", b"quota\n")]
    wanted = [b"ok\n0 77\n", OK, b"ok\n%d 10000\n" % USED, b"no unknown-tenant\n"]
    checks.same("what a start shows", told(*wanted), asked(program, folder, *turns))


def unchanged(checks, program, folder, label, fault, *words):
    """A change that is refused leaves state and journals as they are."""
    before = folder.state(), folder.journals(), folder.journal()
    checks.same(label, failed(fault), change(program, folder, *words))
    checks.same(f"{label}: nothing changed", before, (folder.state(), folder.journals(), folder.journal()))


def show_refused(checks, program, work):
    """A refusal is reported in one line, and changes nothing."""
    folder = pushed(program, os.path.join(work, "kept"))
    no = lambda label, fault, *words: unchanged(checks, program, folder, label, fault, *words)
    no("one that is there", "tenant bob is there already", ADD, "bob=5")
    no("the same limit", "tenant bob is there already", ADD, "bob=1000")
    no("a limit of nobody", "tenant carol is not there", LIMIT, "carol=5")
    no("a limit below its use", f"limit of alice is below its use, {USED}", LIMIT, f"alice={USED - 1}")
    no("a limit of nothing", f"limit of alice is below its use, {USED}", LIMIT, "alice=0")
    no("nobody is taken out", "tenant carol is not there", REMOVE, "carol")
    live = Live(program, "--dir", folder.path)
    checks.same("a host is there", b"ok\n0 1000\n", live.asked(BOB, b"quota\n"))
    for words in ((ADD, "carol=5"), (LIMIT, "bob=5"), (REMOVE, "bob")):
        no(f"{words[0]} where a host has the folder", "store", *words)
    killed(live)
    for words in ((ADD, "carol=5"), (LIMIT, "bob=5"), (REMOVE, "bob")):
        nowhere = Folder(os.path.join(work, "nowhere"))
        os.rmdir(nowhere.path)
        checks.same(f"{words[0]} of no folder", failed("no state"), change(program, nowhere, *words))
        checks.same(f"{words[0]} makes none", False, os.path.exists(nowhere.path))
    full = Folder(os.path.join(work, "full"))
    grants = [f"t{number:02}=1" for number in range(64)]
    checks.same("as many as may be", done(), program.ran("run", "--dir", full.path, *grants))
    unchanged(checks, program, full, "one more", "too many tenants", ADD, "alice=1")
    checks.same("one is taken out", done(), change(program, full, REMOVE, "t63"))
    checks.same("then there is room", done(), change(program, full, ADD, "alice=1"))
    for word in ("alice", "alice=", "alice=01", "Alice=1", "=1", "alice=1099511627777", "-x=1", ""):
        for verb in (ADD, LIMIT):
            bad = (2, b"", b"forkhost: bad tenant %s\n" % word.encode())
            if not word.startswith("-"):
                checks.same(f"{verb} {word!r}", bad, change(program, full, verb, word))
    for word in ("Alice", "alice=1", "", "a" * 33):
        bad = (2, b"", b"forkhost: bad tenant %s\n" % word.encode())
        checks.same(f"{REMOVE} {word!r}", bad, change(program, full, REMOVE, word))
    for words in ([ADD], [ADD, "x=1"], [ADD, "--dir", full.path], [ADD, "--dir", full.path, "x=1", "y=1"], [REMOVE, "x"]):
        checks.same(f"{words[:2]}", (2, b""), program.ran(*words)[:2])


def show_limited(checks, program, work):
    """A limit goes up, and down as far as what is used."""
    folder = pushed(program, os.path.join(work, "kept"))
    over = b"push r\n\n" + record(b"blob", b"x" * 1000)
    for limit, reply in ((USED, b"no over-quota\n"), (USED + 1063, b"no over-quota\n"), (USED + 1064, OK)):
        checks.same(f"a limit of {limit}", done(), change(program, folder, LIMIT, f"alice={limit}"))
        state = spelled([tenant(ALICE, OBJECTS, [MAIN], limit), tenant(BOB, [], limit=1000)])
        checks.same(f"{limit}: the state", state, folder.state())
        again = sound(2) if limit == USED else sound(0)
        checks.same(f"{limit}: check", again, program.checked(folder.path))
        turns = [(ALICE, b"quota\n"), (ALICE, b"part-drop\n"), (ALICE, over)]
        dropped = OK if limit == USED else b"no no-upload\n"
        wanted = [b"ok\n%d %d\n" % (USED, limit), dropped, reply]
        checks.same(f"{limit}: what a start shows", told(*wanted), asked(program, folder, *turns))
    checks.same("the greatest", done(), change(program, folder, LIMIT, "bob=1099511627776"))
    checks.same("bob has it", told(b"ok\n0 1099511627776\n"), asked(program, folder, (BOB, b"quota\n")))


def show_removed(checks, program, work):
    """A tenant's repositories, objects, offers and upload go, what others offered to it stays, and what only it held is swept."""
    folder = Folder(os.path.join(work, "kept"))
    only = (b"blob", b"bob's\n")
    turns = [INIT, (ALICE, PUSH), (ALICE, b"offer r bob\n"), (ALICE, b"part\nabc")]
    turns += [(BOB, b"init s\n"), (BOB, b"push s\n\n" + record(*only)), (BOB, b"fork-offer alice r t\n")]
    turns += [(BOB, b"offer t alice\n"), (BOB, b"part\nde")]
    live = Live(program, "--dir", folder.path, "alice=10000", "bob=10000")
    for turn in turns:
        checks.same(f"{turn[1][:12]!r}", OK, live.asked(*turn))
    killed(live)
    checks.same("bob is taken out", done(), change(program, folder, REMOVE, "bob"))
    alice = tenant(ALICE, OBJECTS, [MAIN])._replace(offers=[Offer(BOB, b"r", dict([MAIN]))])
    checks.same("the state", spelled([alice]), folder.state())
    checks.same("the journal", frame(ALICE, b"part\nabc"), folder.journal())
    checks.same("check", sound(1), program.checked(folder.path))
    shown = [(BOB, b"quota\n"), (ALICE, b"offers\n"), (ALICE, b"cat-file %s\n" % B), (HOST, b"census\n")]
    wanted = [b"no unknown-tenant\n", b"ok\nto bob r\n", OK + record(*OBJECTS[B]), b"ok\n%d\n" % (len(OBJECTS) + 1)]
    checks.same("what a start shows", told(*wanted), asked(program, folder, *shown))
    swept = [(HOST, b"collect\n"), (HOST, b"census\n")]
    checks.same("what only bob held is swept", told(b"ok\n1\n", b"ok\n%d\n" % len(OBJECTS)), asked(program, folder, *swept))
    checks.same("the files", set(OBJECTS), set(folder.files()))
    checks.same("another bob", done(), change(program, folder, ADD, "bob=10000"))
    again = [(BOB, b"quota\n"), (BOB, b"offers\n"), (BOB, b"fork-offer alice r t\n"), (BOB, b"cat-file %s\n" % C)]
    wanted = [b"ok\n0 10000\n", b"ok\nfrom alice r\n", OK, OK + record(*OBJECTS[C])]
    checks.same("what it is offered", told(*wanted), asked(program, folder, *again))
    checks.same("the giver is taken out", done(), change(program, folder, REMOVE, "alice"))
    bob = Tenant(BOB, 10000, [Repository(b"t", dict([MAIN]))], sorted({B, C, D} | reached()))
    checks.same("what was forked is bob's", spelled([bob]), folder.state())
    checks.same("the last one", done(), change(program, folder, REMOVE, "bob"))
    checks.same("nobody is left", spelled([]), folder.state())
    checks.same("check of nobody", sound(), program.checked(folder.path))


def reached():
    """What the branch leads to."""
    return {name for name, (kind, _) in OBJECTS.items() if kind in (b"tree", b"commit")}
