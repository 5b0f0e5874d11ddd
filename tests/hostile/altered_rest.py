"""Alterations of what is beside the objects: the state, the journal, the lock, parts, what was swept, the socket."""
import os
import random
import stat

from lib.chained import LINE, pieces_in
from folders.loading import verdict
from hostile.alterations import THINGS, alter, clear, put_back, write
from hostile.altered_objects import one_of
from hostile.runs import PATIENCE, give
from hostile.stores import ALICE, BOB, Store
from lib.folder import content
from lib.frames import frame, framed, frames
from lib.live import Doubted
from lib.objects import record
from lib.program import done, failed, of_verdict, sound

UNREADABLE = [kind for kind in THINGS if kind not in ("nothing", "a link to a copy", "a link to nothing", "one byte too long")]
EXTRA = (b"blob", b"one more\n")


def altered_texts(chance, text):
    """The text with a byte turned, cut, with lines that are gone, doubled, exchanged, and with bytes after it."""
    lines = text.split(b"\n")
    one, other = chance.randrange(len(lines) - 1), chance.randrange(len(lines) - 1)
    at = chance.randrange(len(text))
    yield text[:at] + bytes([text[at] ^ (1 << chance.randrange(8))]) + text[at + 1 :]
    yield text[:at]
    yield b"\n".join(lines[:one] + lines[one + 1 :])
    yield b"\n".join(lines[: one + 1] + lines[one:])
    lines[one], lines[other] = lines[other], lines[one]
    yield b"\n".join(lines)
    yield text + chance.randbytes(1)


def show_states(checks, program, work):
    """The state's text is altered: what a plain reader finds is reported."""
    store, chance = Store(work), random.Random(27)
    folder = store.copy(os.path.join(work, "folder"))
    path = folder.inside("state")
    for number in range(60):
        for way, text in enumerate(altered_texts(chance, store.text)):
            write(path, text)
            wanted = of_verdict(verdict(text, store.files))
            checks.same(f"state {number}.{way}", wanted, program.tried("state", "check", "--dir", folder.path))
    write(path, store.text)
    checks.same("the text as it was", sound(), program.tried("state", "check", "--dir", folder.path))


def show_state_things(checks, program, work):
    """Something that is not a file is in the state's place: it cannot be read, and stays."""
    store, chance = Store(work), random.Random(28)
    wanted = {kind: [failed("state unreadable")] for kind in UNREADABLE}
    wanted |= {"longer than memory": [failed("state line 1")]}
    wanted |= {"a link to a copy": [sound(), failed("state unreadable")]}
    wanted |= {"a link to nothing": [failed("no state"), failed("state unreadable")]}
    for number, (kind, ends) in enumerate(wanted.items()):
        folder = store.copy(os.path.join(work, str(number)))
        path = folder.inside("state")
        alter(kind, path, store.text, chance)
        before = os.lstat(path)
        label = f"{kind} in the state's place"
        one_of(checks, f"check, {label}", ends, program.tried(f"check {label}", "check", "--dir", folder.path))
        if len(ends) == 1 and ends[0].fault:
            told = program.tried(f"run {label}", "run", "--dir", folder.path, given=frame(ALICE, b"quota\n"))
            checks.same(f"run, {label}", ends[0], told)
            after = os.lstat(path)
            checks.same(f"it stays, {label}", (before.st_ino, before.st_mode), (after.st_ino, after.st_mode))
        clear(path)


def journaled(program, store, path):
    """A folder with a journal of some requests after its state."""
    folder = store.copy(path)
    session = Doubted(program, PATIENCE, "--dir", folder.path)
    turns = [(ALICE, b"init s\n"), (BOB, b"part\n\n" + record(*EXTRA)), (ALICE, b"push s\n\n" + record(*EXTRA))]
    turns += [(ALICE, b"fork r t\n"), (BOB, b"part-end r\n"), (ALICE, b"drop s\n")]
    told = [session.asked(*turn) for turn in turns]
    session.child.kill()
    session.child.communicate()
    give(folder.path)
    return folder, turns, told


def show_journals(checks, program, work):
    """The journal is altered: it is done again up to where it is cut, or what differs is told; and the state stays."""
    store, chance = Store(work), random.Random(29)
    folder, turns, told = journaled(program, store, os.path.join(work, "folder"))
    checks.same("the journal is made", [b"ok\n"] * len(turns), told)
    checks.same("the journal", frames(turns), folder.journal())
    path, whole = folder.journal_path(), content(folder.journal_path())
    unreadable = failed("journal unreadable")
    for number in range(150):
        at = chance.randrange(len(whole))
        texts = [whole[:at], whole[:at] + bytes([whole[at] ^ (1 << chance.randrange(8))]) + whole[at + 1 :]]
        texts += [whole[:at] + chance.randbytes(5) + whole[at:], whole[at:], chance.randbytes(at)]
        text = texts[number % len(texts)]
        write(path, text)
        pieces, _ = pieces_in(folder.name(), text[LINE:])
        wanted = sound(len(pieces)) if whole.startswith(text) and len(text) >= LINE else unreadable
        ends = [wanted, sound(len(turns))] if 10 <= at < 74 and len(text) == len(whole) else [wanted]
        one_of(checks, f"journal {number}", ends, program.tried("journal", "check", "--dir", folder.path))
        checks.same(f"journal {number}: the state", store.text, folder.state())
        checks.same(f"journal {number}: it stays", text, content(path))
    write(path, whole)
    checks.same("the journal as it was", sound(6), program.tried("journal", "check", "--dir", folder.path))


def show_journal_things(checks, program, work):
    """Something that is not a file is in the journal's place: it cannot be read, or holds no frame; nothing hangs."""
    store, chance = Store(work), random.Random(30)
    unreadable, empty = failed("journal unreadable"), sound()
    ends = {kind: [unreadable] for kind in ("a folder", "a folder with its file", "a pipe", "a socket", "a link to a pipe")}
    ends |= {kind: [unreadable] for kind in ("a link to a folder", "without rights", "a link to itself")}
    ends |= {kind: [unreadable, empty] for kind in THINGS if kind not in ends and kind != "a link to a copy"}
    ends |= {"a link to a copy": [unreadable, sound(6)]}
    for number, (kind, wanted) in enumerate(ends.items()):
        folder, _, _ = journaled(program, store, os.path.join(work, str(number)))
        path = folder.journal_path()
        alter(kind, path, content(path), chance)
        label = f"{kind} in the journal's place"
        one_of(checks, f"check, {label}", wanted, program.tried(f"check {label}", "check", "--dir", folder.path))
        checks.same(f"the state, {label}", store.text, folder.state())
        if wanted == [unreadable]:
            checks.same(f"run, {label}", unreadable, program.tried(f"run {label}", "run", "--dir", folder.path))
            checks.same(f"it stays, {label}", True, os.path.lexists(path))
        clear(path)


def show_locks(checks, program, work):
    """Something that is not a file is in the lock's place: the folder cannot be opened."""
    store, chance = Store(work), random.Random(31)
    kinds = [kind for kind in THINGS if kind not in ("nothing", "a link to a copy", "a link to nothing")]
    for number, kind in enumerate(kinds):
        folder = store.copy(os.path.join(work, str(number)))
        alter(kind, folder.inside("lock"), b"", chance)
        if os.path.isfile(folder.inside("lock")) and kind != "without rights":
            give(folder.path)
        wanted = [sound()] if kind in ("one byte too long", "longer than memory") else [failed("store")]
        label = f"{kind} in the lock's place"
        for word in ("check", "run"):
            ends = wanted if word == "check" or wanted != [sound()] else [done()]
            one_of(checks, f"{word}, {label}", ends, program.tried(f"{word} {label}", word, "--dir", folder.path))
        checks.same(f"the state, {label}", store.text, folder.state())


def show_parts(checks, program, work):
    """What was being written, whatever it is: it goes at a start, or the folder cannot be opened."""
    store, chance = Store(work), random.Random(32)
    places = [("part",), ("objects", "00", "part"), ("journal", "part")]
    kinds = [kind for kind in THINGS if kind not in ("nothing", "a folder", "a folder with its file")]
    for number, place in enumerate(places):
        folder = store.copy(os.path.join(work, str(number)))
        os.makedirs(os.path.dirname(folder.inside(*place)), exist_ok=True)
        give(folder.path)
        for kind in kinds:
            alter(kind, folder.inside(*place), b"torn", chance)
            label = f"{kind} in the place of {'/'.join(place)}"
            checks.same(label, sound(), program.tried(label, "check", "--dir", folder.path))
            checks.same(f"it is gone, {label}", False, os.path.lexists(folder.inside(*place)))
            put_back(folder.inside(*place), b"")
        clear(folder.inside(*place))
        os.mkdir(folder.inside(*place))
        checks.same(f"a folder in the place of {place}", failed("store"), program.tried("part", "check", "--dir", folder.path))


def show_swept_things(checks, program, work):
    """What was swept is no file of its object: it is put back as it is, and named where somebody sees the object."""
    store, chance = Store(work), random.Random(33)
    kinds = [kind for kind in THINGS if kind not in ("nothing", "without rights") and not kind.startswith("a link")]
    for number, kind in enumerate(kinds):
        folder = store.copy(os.path.join(work, str(number)))
        name = chance.choice(sorted(store.seen[ALICE]))
        folder.sweep(name)
        alter(kind, folder.swept_path(name), store.files[name], chance)
        give(folder.path)
        label = f"{kind} in the place of what was swept"
        checks.same(label, failed(f"damaged {name.decode()}"), program.tried(label, "check", "--dir", folder.path))
        clear(folder.file_of(name))


def show_socket_things(checks, program, work):
    """Something that is not a socket is in the socket's place, or in that of the folder beside it: it stays, and is reported."""
    chance = random.Random(34)
    home = os.path.join(work, "home")
    os.mkdir(home)
    give(home)
    kinds = [kind for kind in THINGS if kind not in ("nothing", "a socket")]
    for beside in ("", ".lock"):
        for kind in kinds:
            path = os.path.join(home, "s")
            if beside and kind in ("a folder", "a folder with its file", "a link to a folder"):
                continue
            alter(kind, path + beside, b"", chance)
            before = os.lstat(path + beside)
            label = f"{kind} in the place of the socket{beside}"
            words = ["serve", "--socket", path, "--connections", "1", "alice=1"]
            checks.same(label, failed("socket"), program.tried(label, *words))
            after = os.lstat(path + beside) if os.path.lexists(path + beside) else before
            checks.same(f"it stays, {label}", (before.st_ino, stat.S_IFMT(before.st_mode)), (after.st_ino, stat.S_IFMT(after.st_mode)))
            for name in os.listdir(home):
                clear(os.path.join(home, name))
