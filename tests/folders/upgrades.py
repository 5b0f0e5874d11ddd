"""A start over a folder that the version before left, and its upgrade; and what cannot be upgraded."""
import os
import shutil
import subprocess

from folders.before import ALICE, FIRST, LEFT, NEW, OLD, TIP, copy, new_text, show_all
from folders.killing import limited
from folders.state_text import read
from lib.folder import Folder, content, write
from lib.frames import framed, frames
from lib.live import Live
from lib.program import PATIENCE, Ran, done, failed, sound

STATE_2 = done(b"state 2\n")
LINES = OLD.count(b"\n")


def upgraded(program, folder):
    return program.ran("upgrade", "--dir", folder.path)


def show_old(checks, program, work):
    """A folder of version 1 is read; a check leaves it as it is, and a start saves it in version 2."""
    folder = copy(work, "start")
    checks.same("the fixture is of version 1", b"forkhost state 1", OLD.partition(b"\n")[0])
    checks.same("its journal", 11, folder.again())
    before = folder.journal()
    checks.same("check", sound(folder.again()), program.checked(folder.path))
    checks.same("check changes nothing", (OLD, before), (folder.state(), folder.journal()))
    show_all(checks, program, "a start", folder)
    bare = copy(work, "bare")
    shutil.rmtree(bare.inside("journal"))
    checks.same("a start over the state alone", done(), program.ran("run", "--dir", bare.path))
    checks.same("it is saved anew", new_text(OLD), bare.state())


def show_upgrades(checks, program, work):
    """The journal's requests are done, and all is saved in version 2; another upgrade changes nothing."""
    folder = copy(work, "upgrade")
    for label in ("an upgrade", "another one"):
        checks.same(label, STATE_2, upgraded(program, folder))
        checks.same(f"{label}: the state", NEW, folder.state())
        checks.same(f"{label}: its first line", b"forkhost state 2", folder.state().partition(b"\n")[0])
        checks.same(f"{label}: its journal", [os.path.basename(folder.journal_path())], folder.journals())
        checks.same(f"{label}: check", sound(LEFT), program.checked(folder.path))
        checks.same(f"{label}: what was being written", [], folder.parts())
    show_all(checks, program, "after upgrades", folder)
    bare = copy(work, "bare")
    shutil.rmtree(bare.inside("journal"))
    checks.same("an upgrade of the state alone", STATE_2, upgraded(program, bare))
    checks.same("its state", new_text(OLD), bare.state())
    show_heads_stay(checks, program, Folder(os.path.join(work, "heads")))


def show_heads_stay(checks, program, folder):
    """Of a folder of version 2 each HEAD stays: what the state has, and what the journal has after it."""
    sets = [(ALICE, b"init r\n"), (ALICE, b"init s\n"), (ALICE, b"set-head r refs/heads/x\n")]
    ran = program.ran("run", "--dir", folder.path, "alice=1000", given=frames(sets))
    checks.same("HEAD is set", done(framed(b"ok\n") * 3), ran)
    live = Live(program, "--dir", folder.path)
    for payload in (b"fork r t\n", b"set-head s refs/heads/y/z\n", b"set-head t refs/heads/w\n", b"fork s u\n"):
        checks.same(f"{payload!r}", b"ok\n", live.asked(ALICE, payload))
    live.child.kill()
    live.child.communicate()
    checks.same("an upgrade", STATE_2, upgraded(program, folder))
    wanted = {b"r": b"x", b"s": b"y/z", b"t": b"w", b"u": b"y/z"}
    (tenant,), _ = read(folder.state())
    heads = {one.name: one.head.removeprefix(b"refs/heads/") for one in tenant.repositories}
    checks.same("its heads", wanted, heads)
    asks = [(ALICE, b"head %s\n" % name) for name in wanted]
    told = b"".join(framed(b"ok\nrefs/heads/%s\n" % branch) for branch in wanted.values())
    checks.same("what a start shows of them", done(told), program.ran("run", "--dir", folder.path, given=frames(asks)))


def of_version_3(folder):
    folder.set_state(OLD.replace(b"state 1", b"state 3"))


def without_a_line(folder):
    folder.set_state(OLD.replace(b"end\n", b""))


def without_a_file(folder):
    os.remove(folder.file_of(FIRST))


def with_another_file(folder):
    folder.keep(FIRST, b"commit 0\0")


def with_another_target(folder):
    folder.set_state(OLD.replace(b"ref " + FIRST, b"ref " + TIP))
    shutil.rmtree(folder.inside("journal"))


def with_a_small_limit(folder):
    folder.set_state(OLD.replace(b"bob 5000", b"bob 10"))


def with_another_journal(folder):
    write(folder.old_journal_path(), folder.journal().replace(b"init z", b"init Z"))


def with_no_journal_to_read(folder):
    path = folder.old_journal_path()
    os.remove(path)
    os.mkdir(path)


def without_a_state(folder):
    os.remove(folder.inside("state"))


def with_no_state_to_read(folder):
    os.remove(folder.inside("state"))
    os.mkdir(folder.inside("state"))


# The faults that `check` reports too.
FAULTS = {
    without_a_state: "no state",
    with_no_state_to_read: "state unreadable",
    of_version_3: "state line 1",
    without_a_line: f"state line {LINES}",
    without_a_file: f"lost {FIRST.decode()}",
    with_another_file: f"damaged {FIRST.decode()}",
    with_another_target: f"unsound {TIP.decode()}",
    with_a_small_limit: "over limit bob",
    with_another_journal: "journal unreadable",
    with_no_journal_to_read: "journal unreadable",
}
# No file grows longer: there is no room for a journal, or for a state.
ROOMS = (0, 100, 2000)


def stands(folder):
    """The state and the journals as they are."""
    paths = [folder.inside("state"), *(folder.inside("journal", name) for name in folder.journals())]
    return {path: content(path) for path in paths if os.path.isfile(path)}


def show_refused_upgrades(checks, program, work):
    """What cannot be loaded or saved is reported, and stays."""
    for spoil, fault in FAULTS.items():
        folder, label = copy(work, spoil.__name__), spoil.__name__.replace("_", " ")
        spoil(folder)
        before = stands(folder)
        checks.same(f"check {label}", failed(fault), program.checked(folder.path))
        checks.same(f"an upgrade {label}", failed(fault), upgraded(program, folder))
        checks.same(f"an upgrade {label} leaves all", before, stands(folder))
    for most in ROOMS:
        folder, label = copy(work, f"room{most}"), f"an upgrade where files have {most} bytes"
        checks.same(label, failed("state not saved"), cramped(program, folder, most))
        checks.same(f"{label}: the state", OLD, folder.state())
        show_all(checks, program, label, folder)
    absent = Folder(os.path.join(work, "absent"))
    shutil.rmtree(absent.path)
    checks.same("an upgrade of nothing", failed("no state"), upgraded(program, absent))
    checks.same("makes nothing", False, os.path.exists(absent.path))
    show_held(checks, program, copy(work, "held"))


def cramped(program, folder, most):
    """An upgrade in which no file grows longer."""
    words = [program.path, "upgrade", "--dir", folder.path]
    ran = subprocess.run(words, capture_output=True, timeout=PATIENCE, preexec_fn=limited(most), restore_signals=False)
    return Ran(ran.returncode, ran.stdout, ran.stderr)


def show_held(checks, program, folder):
    """A folder that a host has open is not upgraded."""
    live = Live(program, "--dir", folder.path)
    checks.same("it serves", b"ok\n", live.asked(ALICE, b"init later\n"))
    before = stands(folder)
    checks.same("an upgrade of what is held", failed("store"), upgraded(program, folder))
    checks.same("leaves all", before, stands(folder))
    checks.same("the host's end", done(), live.ended())
