"""A file of a host's folder that is not there any more while a start reads it."""
import os
import subprocess

from folders.clients import ALICE
from folders.journals import INIT, killed
from lib.folder import Folder
from lib.live import Live
from lib.program import ended, failed, sound

PART = b"part\nblob %d\n"
LENGTH = 20_000
# More calls than `check` makes.
CALLS = 100


def checked_without(program, folder, at):
    """How `check` ends if, from a call on, the system finds no file that is asked for by its path."""
    fails = ["-e", "trace=statx", "-e", f"inject=statx:error=ENOENT:when={at}+"]
    words = ["strace", "-f", "-qq", "-o", os.devnull, *fails, program.path, "check", "--dir", folder.path]
    return ended(subprocess.Popen(words, stdin=subprocess.PIPE, stdout=subprocess.PIPE, stderr=subprocess.PIPE))


def show_taken_away(checks, program, work):
    """A journal that is there is repeated whole, or it is told that it could not be read."""
    folder = Folder(os.path.join(work, "taken"))
    live = Live(program, "--dir", folder.path, "alice=9000000")
    live.asked(*INIT)
    for byte in range(20):
        live.asked(ALICE, PART % LENGTH + bytes([byte]) * LENGTH)
    killed(live)
    whole = sound(folder.again())
    checks.same("its journal is repeated", whole, program.checked(folder.path))
    told = [checked_without(program, folder, at) for at in range(1, CALLS)]
    # One that was not seen at all counts as none.
    right = {whole, sound(), *map(failed, ("store", "no state", "state unreadable", "journal unreadable"))}
    for at, ran in enumerate(told, 1):
        checks.same(f"no file from call {at} on", True, ran in right)
    checks.same("it was taken away in the middle", True, told.count(failed("journal unreadable")) > 20)
    checks.same("all calls were tried", whole, told[-1])
