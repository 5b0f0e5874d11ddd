"""A segment that is altered, and what else may be in its place."""
import itertools
import os
import random

from folders.loading import verdict
from hostile.alterations import BYTES, THINGS, alter, clear
from hostile.altered_rest import one_of
from hostile.runs import give
from hostile.stores import ALICE, Store
from lib.folder import Folder, content, write
from lib.frames import frame
from lib.packed import long_record_of, record_of, spelled
from lib.program import done, failed, of_verdict

TRIES = 3


def packed(store, path):
    """The store's folder with all objects in one segment, by turns in the form that is written now and in the one of earlier
    programs."""
    folder = Folder(path)
    os.mkdir(folder.inside("segments"))
    forms = itertools.cycle((record_of, long_record_of))
    records = [spelled(form(bytes.fromhex(name.decode()), data)) for form, (name, data) in zip(forms, store.files.items())]
    write(folder.inside("segments", "00000001"), b"".join(records))
    folder.set_state(store.text)
    give(folder.path)
    return folder


def show_segments(checks, program, work):
    """A segment has other bytes: a start and `check` report what a plain reader finds, and change nothing."""
    store, chance = Store(work), random.Random(35)
    folder = packed(store, os.path.join(work, "folder"))
    path, = folder.segments().paths()
    whole = content(path)
    checks.same("as it is", of_verdict(verdict(store.text, folder.files())), program.tried("check", "check", "--dir", folder.path))
    for kind, change in BYTES.items():
        for number in range(TRIES):
            data = change(chance, whole)
            write(path, data)
            wanted = of_verdict(verdict(store.text, folder.files()))
            label = f"{kind}, {number}"
            checks.same(f"check: {label}", wanted, program.tried(label, "check", "--dir", folder.path))
            ran = program.tried(label, "run", "--dir", folder.path, given=frame(ALICE, b"quota\n"))
            ends = (0, b"") if wanted.status == 0 else (1, wanted.fault)
            checks.same(f"run: {label}", ends, (ran.status, ran.fault))
            checks.same(f"it stays: {label}", data, content(path)[: len(data)])
    write(path, whole)
    checks.same("put back", done(b"sound\n"), program.tried("check", "check", "--dir", folder.path))


def show_segment_things(checks, program, work):
    """What is in a segment's place is no file, or too long: nothing hangs, and what is lost is reported."""
    store, chance = Store(work), random.Random(36)
    lost = failed("lost " + store.first(set(store.names)).decode())
    for number, kind in enumerate(THINGS):
        folder = packed(store, os.path.join(work, str(number)))
        path, = folder.segments().paths()
        alter(kind, path, content(path), chance)
        before = os.lstat(path) if os.path.lexists(path) else None
        ends = [lost, failed("store")] if kind != "a link to a copy" else [done(b"sound\n"), lost]
        one_of(checks, f"check, {kind} in a segment's place", ends, program.tried(f"check {kind}", "check", "--dir", folder.path))
        one_of(checks, f"run, {kind} in a segment's place", [done(), *ends], program.tried(f"run {kind}", "run", "--dir", folder.path))
        after = os.lstat(path) if os.path.lexists(path) else None
        same = [(one.st_ino, one.st_mode) for one in (before, after) if one]
        checks.same(f"it stays, {kind}", 1 if before else 0, len(set(same)))
        clear(path)
