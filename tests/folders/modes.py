"""Who may read what a host makes: its owner alone, whatever the process would allow others."""
import os
import stat

from folders.devices import ALICE, PUSH
from folders.sweeps import HOST
from lib.frames import frames
from lib.live import Live


def modes(path):
    """The modes of a folder, of the folders in it and of their files."""
    paths = [path, *(os.path.join(at, name) for at, folders, files in os.walk(path) for name in folders + files)]
    return {os.path.relpath(it, path): stat.S_IMODE(os.lstat(it).st_mode) for it in paths}


def wanted(found, path):
    return {it: 0o700 if os.path.isdir(os.path.join(path, it)) else 0o600 for it in found}


def show_modes(checks, program, work):
    """Objects, what was swept, state, journal and lock, of a session that is killed and of one that ends."""
    for mask in (0o022, 0):
        path = os.path.join(work, f"modes-{mask}", "kept")
        old = os.umask(mask)
        try:
            given = frames([(ALICE, b"init r\n"), (ALICE, PUSH)])
            program.ran("run", "--dir", path, "alice=10000", given=given)
            saved = modes(path)
            live = Live(program, "--dir", path)
            for who, payload in [(ALICE, b"drop r\n"), (ALICE, b"prune\n"), (HOST, b"collect\n")]:
                live.asked(who, payload)
            live.child.kill()
            live.child.wait()
            killed = modes(path)
        finally:
            os.umask(old)
        checks.same(f"umask {mask:o}: after an end", wanted(saved, path), saved)
        checks.same(f"umask {mask:o}: after a kill", wanted(killed, path), killed)
        checks.same(f"umask {mask:o}: what was swept is there", True, any(it.startswith("swept/") for it in killed))
