"""The crates of a checkout, as the kit's own library reads them, and checks of one with deeds done in a copy."""
import importlib.machinery
import importlib.util
import os
import shutil
import subprocess
import sys
import tempfile
import time
from contextlib import contextmanager
from pathlib import Path

from deeds.deed import do

PARTS = ("src", "specs", "proofs")
# A check may take this many seconds.
LONGEST = 5400
# The status of timeout(1) where it ended what it ran.
CUT_OFF = 124


def kit_library():
    """The library of `rt`, which knows the crates of a checkout and the words of a check."""
    page = subprocess.run(["rt", "doc"], capture_output=True, text=True, check=True).stdout.strip()
    loader = importlib.machinery.SourceFileLoader("rtlib", str(Path(page).parent / "bin/rtlib.py"))
    module = importlib.util.module_from_spec(importlib.util.spec_from_loader("rtlib", loader))
    sys.modules["rtlib"] = module
    loader.exec_module(module)
    return module


rtlib = kit_library()
# Words before a command, by which it ends when this process does.
GUARDED = rtlib.guarded()


def crates_of(root):
    """The crates of a checkout by their names, lowest first."""
    return {it.name: it for it in rtlib.crates_below(str(Path(root).resolve()))}


def files_of(crate):
    """The files that a library of this crate is made of."""
    return [it for part in PARTS for it in Path(crate.folder, part).rglob("*") if it.is_file()]


def unbuilt(crate):
    """The crates below of which `rt ci` left no library, or of which a file was written later than it."""

    def is_built(below):
        made = Path(below.rlib)
        return made.is_dir() and all(it.stat().st_ctime <= made.stat().st_ctime for it in files_of(below))

    return [it.name for it in crate.below() if not is_built(it)]


@contextmanager
def done(crate, deeds):
    """A copy of a crate's code in which these deeds are done, as long as it is used."""
    with tempfile.TemporaryDirectory() as room:
        for part in PARTS:
            if os.path.isdir(f"{crate.folder}/{part}"):
                shutil.copytree(f"{crate.folder}/{part}", f"{room}/{part}")
        do(deeds, Path(room))
        yield room


def words_of(crate):
    """The words of a check of this crate."""
    return [rtlib.RATTLE, "check", *crate.words(["--jobs", "1"], keeps=False)]


def compiled(crate, deeds):
    """Whether these deeds compile together, and what the compiler says of them. No contract is tried."""
    with done(crate, deeds) as room:
        ran = subprocess.run([*GUARDED, *words_of(crate), "--only", ""], cwd=room, capture_output=True, text=True, errors="replace")
    return ran.returncode == 0, ran.stdout + ran.stderr


def checked(crate, deeds, kept, end):
    """What a check says of the functions that the deeds change, or None if it has not ended at the time `end`, and the seconds of a
    processor that it took. What it proves is kept, for the next check of this crate."""
    functions = sorted(set().union(*(it.functions for it in deeds)))
    only = [f"--only={crate.name}::{it}" for it in functions]
    longest = max(1, min(LONGEST, end - time.monotonic()))
    words = ["timeout", "--foreground", str(longest), *words_of(crate), "--incremental", str(kept), *only]
    with done(crate, deeds) as room:
        how = {"stdin": subprocess.DEVNULL, "stdout": subprocess.PIPE, "stderr": subprocess.STDOUT}
        ran = subprocess.Popen([*GUARDED, *words], cwd=room, errors="replace", **how)
        text = ran.stdout.read()
        _, status, used = os.wait4(ran.pid, 0)
        ran.returncode = os.waitstatus_to_exitcode(status)
    # 0 where all is proved, 1 where something is not: whatever else comes is no verdict.
    if ran.returncode not in (0, 1):
        is_over = ran.returncode == CUT_OFF and time.monotonic() >= end
        text = None if is_over else f"error: the check ended with status {ran.returncode}"
    return text, used.ru_utime + used.ru_stime
