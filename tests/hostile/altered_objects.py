"""Alterations of the files of objects, as a start, `check` and a running session find them."""
import os
import random

from hostile.alterations import BYTES, alter, clear, kinds_of, put_back, write
from hostile.found import DAMAGED, FOUND, RIGHT, STORE
from hostile.runs import PATIENCE
from hostile.stores import ALICE, BOB, Store
from lib.folder import content
from lib.live import NO_REPLY, Doubted
from lib.objects import record, whole
from lib.program import done, failed, sound

ROUNDS = 30
SESSIONS = 3
PLAIN = [kind for kind in FOUND if len(FOUND[kind].start) == 1 and FOUND[kind].start != ("store",)]
SINGLE = [kind for kind in PLAIN if kind in BYTES or kind in ("nothing", "longer than memory", "one byte too long")]


def told_of(word, name):
    """How `check` ends where it finds this of a name."""
    if word == "sound":
        return sound()
    return failed(word if word == "store" else f"{word} {name.decode()}")


def one_of(checks, label, wanted, told):
    """One check: the answer is one of those that may come."""
    checks.same(label, wanted[0] if len(wanted) == 1 else wanted, told if len(wanted) == 1 or told not in wanted else wanted)


def wanted_of(store, kind, name):
    words = FOUND[kind].start if store.is_seen(name) else ("sound",)
    return [told_of(word, name) for word in words]


def show_starts(checks, program, work):
    """One file is altered: `check` and a start name it where somebody sees it, and leave the state."""
    store, chance = Store(work), random.Random(21)
    folder = store.copy(os.path.join(work, "folder"))
    checks.same("all is there", sound(), program.tried("sound", "check", "--dir", folder.path))
    for number in range(ROUNDS * len(FOUND)):
        name = chance.choice(store.names)
        kind = list(FOUND)[number % len(FOUND)]
        if kind not in kinds_of(store.files[name]):
            continue
        alter(kind, folder.file_of(name), store.files[name], chance)
        wanted, label = wanted_of(store, kind, name), f"{number}: {kind} in the place of {name.decode()}"
        one_of(checks, f"check, {label}", wanted, program.tried(f"check {kind}", "check", "--dir", folder.path))
        if number % 3 == 0:
            ends = [done() if ran.status == 0 else ran for ran in wanted]
            one_of(checks, f"run, {label}", ends, program.tried(f"run {kind}", "run", "--dir", folder.path))
            checks.same(f"the state, {label}", store.text, folder.state())
        put_back(folder.file_of(name), store.files[name])
    checks.same("all is put back", store.files, folder.files())
    checks.same("it is sound", sound(), program.tried("sound", "check", "--dir", folder.path))


def show_many(checks, program, work):
    """Some files are altered at once: the first that is seen is reported, by the order of the state's text."""
    store, chance = Store(work), random.Random(22)
    folder = store.copy(os.path.join(work, "folder"))
    for number in range(200):
        kinds = {name: chance.choice(SINGLE) for name in chance.sample(store.names, chance.randint(2, 5))}
        kinds = {name: kind for name, kind in kinds.items() if kind in kinds_of(store.files[name])}
        for name, kind in kinds.items():
            alter(kind, folder.file_of(name), store.files[name], chance)
        first = store.first(kinds)
        wanted = wanted_of(store, kinds[first], first) if first else [sound()]
        one_of(checks, f"many, {number}: {list(kinds.values())}", wanted, program.tried("many", "check", "--dir", folder.path))
        for name in kinds:
            put_back(folder.file_of(name), store.files[name])


def show_swapped(checks, program, work):
    """Two files are exchanged, or one is another's: both names are of no file of theirs."""
    store, chance = Store(work), random.Random(23)
    folder = store.copy(os.path.join(work, "folder"))
    for number in range(200):
        one, other = chance.sample(store.names, 2)
        write(folder.file_of(one), store.files[other])
        if number % 2:
            write(folder.file_of(other), store.files[one])
        first = store.first({one, other} if number % 2 else {one})
        wanted = told_of("damaged", first) if first else sound()
        checks.same(f"swapped, {number}", wanted, program.tried("swapped", "check", "--dir", folder.path))
        for name in (one, other):
            put_back(folder.file_of(name), store.files[name])


HOMES = {
    "nothing": ("lost", lambda path: clear(path)),
    "a file": ("lost", lambda path: (clear(path), write(path, b"x"))),
    "a pipe": ("lost", lambda path: (clear(path), os.mkfifo(path))),
    "a link to itself": ("store", lambda path: (clear(path), os.symlink(os.path.basename(path), path))),
    "another's name": ("lost", lambda path: os.rename(path, path + "0")),
    "a link to itself elsewhere": ("sound", lambda path: (os.rename(path, path + "0"), os.symlink(path + "0", path))),
    "without rights": ("store", lambda path: os.chmod(path, 0)),
}


def show_homes(checks, program, work):
    """A folder of files is altered: all files in it are lost, or the device fails."""
    store = Store(work)
    for number, (kind, (word, spoil)) in enumerate(HOMES.items()):
        for front in (store.names[7][:2], store.names[-3][:2]):
            folder = store.copy(os.path.join(work, f"{number}-{front.decode()}"))
            first = store.first({name for name in store.names if name[:2] == front})
            spoil(folder.inside("objects", front.decode()))
            label = f"{kind} in the place of objects/{front.decode()}"
            checks.same(label, told_of(word, first), program.tried(label, "check", "--dir", folder.path))


class Watched:
    """A session over an altered folder, which is begun again where it does not answer."""

    def __init__(self, checks, program, store, folder):
        self.checks, self.program, self.store, self.folder = checks, program, store, folder
        self.session, self.knows_fsck = None, False
        self.begin()

    def begin(self):
        self.session = Doubted(self.program, PATIENCE, "--dir", self.folder.path)
        self.knows_fsck = self.session.asked(b"@host", b"fsck\n") != b"no bad-request\n"

    def asked(self, label, wanted, who, payload):
        """One of these is told; where nothing is, the session is over."""
        told = self.session.asked(who, payload)
        one_of(self.checks, label, wanted, told)
        return told != NO_REPLY

    def cat(self, label, who, name, answers):
        right = b"ok\n" + record(*self.store.objects[name])
        answers = [right if answer == RIGHT else answer for answer in answers]
        wanted = answers if name in self.store.seen[who] else [b"no missing %s\n" % name]
        return self.asked(f"{label}: cat-file by {who.decode()}", wanted, who, b"cat-file %s\n" % name)

    def fsck(self, label, words, name):
        """What the host says of its files, where this program knows to say it."""
        if not self.knows_fsck:
            return True
        lines = [b"ok\n%s %s\n" % (word.encode(), name) if isinstance(word, str) else word or b"ok\n" for word in words]
        return self.asked(f"{label}: fsck", lines if self.store.is_seen(name) else [b"ok\n"], b"@host", b"fsck\n")

    def altered(self, label, kind, name, chance, with_fsck):
        """A file is altered, asked for, put back, and asked for again."""
        path, data, found = self.folder.file_of(name), self.store.files[name], FOUND[kind]
        if f"asked {kind}" in self.program.hung:
            self.checks.same(f"{label}: it hung before", None, kind)
            return
        alter(kind, path, data, chance)
        lasts = all(self.cat(label, who, name, found.asked) for who in (ALICE, BOB))
        lasts = lasts and (not with_fsck or self.fsck(label, found.listed, name))
        put_back(path, data)
        if not lasts:
            self.program.hung.add(f"asked {kind}")
            self.begin()
        for who in (ALICE, BOB):
            self.cat(f"{label}, put back", who, name, [RIGHT])


def show_asked(checks, program, work):
    """A file is altered while the host runs: whoever sees it gets a fault, and what it was once it is put back."""
    store, chance = Store(work), random.Random(24)
    for number in range(SESSIONS):
        folder = store.copy(os.path.join(work, f"folder{number}"))
        watched = Watched(checks, program, store, folder)
        names = chance.sample(store.names, len(store.names))
        for at, name in enumerate(names):
            kinds = [kind for kind in FOUND if kind in kinds_of(store.files[name])]
            kind = kinds[(at + number) % len(kinds)]
            watched.altered(f"{number}.{at}: {kind}", kind, name, chance, at % 4 == 0)
        checks.same("its end", done(), watched.session.ended())
        checks.same("its state", store.text, folder.state())
        checks.same("its files", store.files, folder.files())


def queries(store):
    tip = store.tips[ALICE]
    other = store.history.tips[70]
    lines = [b"fetch r %s" % tip, b"rev-list r %s ^%s" % (tip, other), b"merge-base r %s %s" % (tip, other)]
    return [line + b"\n" for line in (*lines, b"ls-tree %s" % tip, b"for-each-ref r", b"fetch r %s ^%s" % (other, tip))]


def show_walks(checks, program, work):
    """Some files are altered at once, and asked for by walks: the answer is right, or a fault, and nothing changes."""
    store, chance = Store(work), random.Random(25)
    folder = store.copy(os.path.join(work, "folder"))
    session = Doubted(program, PATIENCE, "--dir", folder.path)
    right = {payload: session.asked(ALICE, payload) for payload in queries(store)}
    checks.same("the queries are answered", [b"ok\n"] * len(right), [reply[:3] for reply in right.values()])
    checks.same("its end", done(), session.ended())
    faults = 0
    for number in range(60):
        names = chance.sample(store.history.tips + [n for n in store.names if store.objects[n][0] == b"tree"], 3)
        kinds = {name: chance.choice(SINGLE + ["without rights"]) for name in names}
        session = Doubted(program, PATIENCE, "--dir", folder.path)
        checks.same(f"walk {number}: it begins", b"ok\n", session.asked(ALICE, b"quota\n")[:3])
        for name, kind in kinds.items():
            alter(kind, folder.file_of(name), store.files[name], chance)
        for payload in queries(store):
            told = session.asked(ALICE, payload)
            one_of(checks, f"walk {number}, {payload[:30]!r}, {list(kinds.values())}", [right[payload], DAMAGED, STORE], told)
            faults += told in (DAMAGED, STORE)
        for name in kinds:
            put_back(folder.file_of(name), store.files[name])
        checks.same(f"walk {number}: put back", right, {asked: session.asked(ALICE, asked) for asked in right})
        checks.same(f"walk {number}: its end", done(), session.ended())
    checks.same(f"faults were met, {faults}", True, faults >= 60)


def begun(program, folder):
    """A session that has begun: its folder is loaded."""
    session = Doubted(program, PATIENCE, "--dir", folder.path)
    session.asked(b"@host", b"census\n")
    return session


def show_arrivals(checks, program, work):
    """An object comes in whose place has something else, and which nobody has: it is put anew, or a fault is reported."""
    store, chance = Store(work), random.Random(26)
    folder = store.copy(os.path.join(work, "folder"))
    session, spare = begun(program, folder), sorted(store.spare)
    for number, kind in enumerate(FOUND):
        name = spare[number % len(spare)]
        data, path = store.files[name], folder.file_of(name)
        if kind not in kinds_of(data):
            continue
        alter(kind, path, data, chance)
        told = session.asked(BOB, b"push r\n\n" + record(*store.objects[name]))
        label = f"a push to {kind}"
        if told == NO_REPLY:
            checks.same(label, b"ok\n", told)
            session = begun(program, folder)
        elif told == b"ok\n":
            checks.same(f"{label} is whole", store.objects[name], whole(name, content(path)))
            checks.same(f"{label}: it is told", b"ok\n" + record(*store.objects[name]), session.asked(BOB, b"cat-file %s\n" % name))
        else:
            wanted = [b"ok\n"] if kind in BYTES or kind == "nothing" else [b"ok\n", DAMAGED, STORE]
            one_of(checks, label, wanted, told)
            checks.same(f"{label}: it is not seen", b"no missing %s\n" % name, session.asked(BOB, b"cat-file %s\n" % name))
        put_back(path, data)
    checks.same("its end", done(), session.ended())
    checks.same("check after it", sound(), program.tried("sound", "check", "--dir", folder.path))
