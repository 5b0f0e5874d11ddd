"""The folder that the version before left, with a journal after its state, and what it showed (`fixtures/make`)."""
import os
import shutil

from folders.state_text import read, spelled
from lib.folder import Folder, content
from lib.frames import framed, frames
from lib.objects import name_of, record, whole
from lib.program import done, sound

FIXTURES = os.path.join(os.path.dirname(os.path.abspath(__file__)), "fixtures")
BASE = os.path.join(FIXTURES, "version_1")
OLD = content(os.path.join(BASE, "state"))
ASKED, TOLD, SAVED = (content(os.path.join(FIXTURES, name)) for name in ("asked", "told", "saved"))
ALICE, BOB = b"alice", b"bob"
TIP = b"ca04105b793e7f72b85239dd949c6fa673eefababb9019138f5f72c69ed3febe"
FIRST = b"987a757d30d327a355c155543e9bacef490aeef7574ca209d93f08ec2616f490"
HEADS = {
    (ALICE, b"head r\n"): b"ok\nrefs/heads/main %s\n" % TIP,
    (ALICE, b"head s\n"): b"ok\nrefs/heads/main %s\n" % FIRST,
    (ALICE, b"head t\n"): b"ok\nrefs/heads/main %s\n" % TIP,
    (ALICE, b"head empty\n"): b"no no-repository empty\n",
    (BOB, b"head r\n"): b"ok\nrefs/heads/main\n",
    (BOB, b"head z\n"): b"ok\nrefs/heads/main\n",
}
# How many requests a journal has after an upgrade: the parts of an open upload.
LEFT = 1
# The upload that is open, what is left of it, and what comes of that.
THREE = (b"blob", b"three\n")
UPLOAD = b"\n" + record(*THREE)
NAME = name_of(*THREE)
REST = [(BOB, b"part\n" + UPLOAD[-3:]), (BOB, b"part-end r\n"), (BOB, b"cat-file %s\n" % NAME)]
GOES_ON = [b"ok\n", b"ok\n", b"ok\n" + record(*THREE)]


def copy(work, name):
    return Folder(shutil.copytree(BASE, os.path.join(work, name)))


def new_text(text, *seen):
    """The text of version 2 for one of version 1; bob sees these too."""
    tenants, _ = read(text)
    return spelled([one._replace(seen=sorted({*one.seen, *(seen if one.name == BOB else ())})) for one in tenants])


NEW, ENDED = new_text(SAVED), new_text(SAVED, NAME)


def show_all(checks, program, label, folder):
    """A start shows what the version before showed, each HEAD at main; the open upload goes on."""
    told = [*HEADS.values(), *GOES_ON]
    wanted = done(TOLD + b"".join(map(framed, told)))
    ran = program.ran("run", "--dir", folder.path, given=ASKED + frames([*HEADS, *REST]))
    checks.same(f"{label}: what it shows", wanted, ran)
    checks.same(f"{label}: the state after it", ENDED, folder.state())
    checks.same(f"{label}: check after it", sound(), program.checked(folder.path))
    checks.same(f"{label}: files that are torn", [], torn(folder))


def torn(folder):
    return [name for name, file in folder.files().items() if not whole(name, file)]
