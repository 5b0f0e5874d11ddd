"""What `fsck` reports of files that are gone or wrong, and that a check of the folder and a start report the same."""
import os
import random

from folders.caching import tag_of
from folders.cases import altered
from folders.loading import verdict
from folders.state_text import read
from lib.folder import Folder, content
from lib.frames import frame, frames, replies
from lib.live import Live, Serving
from lib.objects import name_of, record, stored, whole
from lib.program import done, failed, of_verdict, sound

ALICE, BOB, CAROL, HOST = b"alice", b"bob", b"carol", b"@host"
TENANTS = ["alice=10000000", "bob=10000000", "carol=10000000"]
FSCK = b"fsck\n"
NOTHING = b"ok\n"
LARGE, SMALL = b"x" * 70_000, b"y" * 65_536
FREE = b""


def blob(text):
    return name_of(b"blob", text)


def tagged(*texts):
    """A push of blobs, with a tag at each of them."""
    lines = [b"create %s %s\n" % (tag_of(blob(text)), blob(text)) for text in texts]
    return b"push r\n" + b"".join(lines) + b"\n" + b"".join(record(b"blob", text) for text in texts)


def given_up(text):
    return b"update-refs r\ndelete %s %s\n" % (tag_of(blob(text)), blob(text))


def told(*harms):
    return NOTHING + b"".join(b"%s %s\n" % harm for harm in harms)


def looks_of(*texts):
    """What shows a tenant's view, and the host's catalogue."""
    reads = [b"cat-file %s\n" % blob(text) for text in texts]
    turns = [(who, ask) for who in (ALICE, BOB, CAROL) for ask in (b"quota\n", b"for-each-ref r\n", *reads)]
    return [*turns, (HOST, b"census\n")]


def told_to(live, turns):
    return [live.asked(*turn) for turn in turns]


def begun(checks, program, folder, *holders, texts):
    """A host in a folder, with repositories, and blobs that these hold."""
    live = Live(program, "--dir", folder.path, *TENANTS)
    for who in (ALICE, BOB, CAROL):
        checks.same("init", NOTHING, live.asked(who, b"init r\n"))
    for who in holders:
        checks.same("a push", NOTHING, live.asked(who, tagged(*texts)))
    return live


def remove(folder, name):
    os.remove(folder.file_of(name))


def spoil(folder, name):
    """Removes an object's file, or alters it if it is one of many in a segment. What is told of it then."""
    if folder.segments():
        folder.flip(name)
        return b"damaged"
    remove(folder, name)
    return b"lost"


# In a segment an object's file is altered as long as it is.
AS_LONG = {
    "the last byte changed": (lambda file: altered(file, len(file) - 1), b"damaged"),
    "the first byte changed": (lambda file: altered(file, 0), b"damaged"),
    "zeros": (lambda file: bytes(len(file)), b"damaged"),
}
ALTERED = {
    **AS_LONG,
    "cut by one byte": (lambda file: file[:-1], b"damaged"),
    "one byte more": (lambda file: file + b"x", b"damaged"),
    "emptied": (lambda file: b"", b"damaged"),
    "another object's": (lambda file: stored(b"blob", b"other"), b"damaged"),
    "removed": (lambda file: None, b"lost"),
}


def alterations(folder):
    """What can be done to the file of an object while a host runs over the folder."""
    return AS_LONG if folder.segments() else ALTERED


def alter(folder, name, change):
    file = change(folder.content_of(name))
    if folder.segments():
        folder.write_over(name, file)
    else:
        remove(folder, name) if file is None else folder.keep(name, file)


def at_start(folder, harm):
    """What a start reports of this harm: it passes over a record that is wrong."""
    return b"lost" if folder.segments() else harm


def show_alteration(checks, program, work, label, text, is_read):
    """One alteration of a stored blob that two hold, between two requests of a session, and at a start."""
    change, harm = ALTERED[label]
    label = f"{label}, {len(text)} bytes{', read before' if is_read else ''}"
    folder = Folder(os.path.join(work, label))
    name = blob(text)
    live = begun(checks, program, folder, ALICE, BOB, texts=[text])
    checks.same(f"{label}: before", NOTHING, live.asked(HOST, FSCK))
    if is_read:
        checks.same(f"{label}: a read", NOTHING + record(b"blob", text), live.asked(BOB, b"cat-file %s\n" % name))
    quotas = [(who, b"quota\n") for who in (ALICE, BOB, CAROL)]
    used = told_to(live, quotas)
    alter(folder, name, change)
    files = folder.files()
    for number in range(2):
        checks.same(f"{label}: told, {number}", told((harm, name)), live.asked(HOST, FSCK))
    is_kept = is_read and len(text) <= 65_536
    wanted = NOTHING + record(b"blob", text) if is_kept else b"host damaged\n"
    for who in (ALICE, BOB):
        checks.same(f"{label}: a read of it", wanted, live.asked(who, b"cat-file %s\n" % name))
    checks.same(f"{label}: who sees none", b"no missing %s\n" % name, live.asked(CAROL, b"cat-file %s\n" % name))
    checks.same(f"{label}: quotas", used, told_to(live, quotas))
    checks.same(f"{label}: a collection", b"ok\n0\n", live.asked(HOST, b"collect\n"))
    checks.same(f"{label}: files", files, folder.files())
    checks.same(f"{label}: its end", done(), live.ended())
    fault = failed(f"{at_start(folder, harm).decode()} {name.decode()}")
    checks.same(f"{label}: a check", fault, program.checked(folder.path))
    checks.same(f"{label}: a start", fault, program.ran("run", "--dir", folder.path, given=frame(HOST, FSCK)))
    folder.keep(name, stored(b"blob", text))
    checks.same(f"{label}: put back", sound(folder.again()), program.checked(folder.path))
    again = program.ran("run", "--dir", folder.path, given=frame(HOST, FSCK))
    checks.same(f"{label}: a start then", ([NOTHING], b""), replies(again.output))


def show_alterations(checks, program, work):
    new = Folder(os.path.join(work, "new"))
    checks.same("a new folder", done(), program.ran("run", "--dir", new.path))
    for text in (LARGE, SMALL):
        for is_read in (False, True):
            for label in alterations(new):
                show_alteration(checks, program, work, label, text, is_read)


def show_unheld(checks, program, work):
    """The file of an object that nobody holds is nobody's harm, gone or altered."""
    new = Folder(os.path.join(work, "new"))
    checks.same("a new folder", done(), program.ran("run", "--dir", new.path))
    for label, (change, _) in alterations(new).items():
        folder = Folder(os.path.join(work, label))
        live = begun(checks, program, folder, ALICE, texts=[LARGE])
        free = name_of(b"blob", b"nobody's")
        checks.same("a push", NOTHING, live.asked(BOB, b"push r\n\n" + record(b"blob", b"nobody's")))
        checks.same("a prune", NOTHING, live.asked(BOB, b"prune\n"))
        alter(folder, free, change)
        checks.same(f"{label}: nothing is told", NOTHING, live.asked(HOST, FSCK))
        checks.same(f"{label}: its end", done(), live.ended())
        checks.same(f"{label}: a check", sound(folder.again()), program.checked(folder.path))
        again = program.ran("run", "--dir", folder.path, given=frame(HOST, FSCK))
        checks.same(f"{label}: a start", ([NOTHING], b""), replies(again.output))


def show_order(checks, program, work):
    """Several harms at once are in the order of the names, whichever came first."""
    chance = random.Random(11)
    texts = [b"%d of many" % number for number in range(40)]
    for number in range(12):
        folder = Folder(os.path.join(work, f"order{number}"))
        live = begun(checks, program, folder, ALICE, texts=texts)
        chosen = chance.sample(texts, chance.choice([2, 3, 10, 40]))
        harms = []
        for text in chosen:
            change, harm = chance.choice(sorted(alterations(folder).items()))[1]
            alter(folder, blob(text), change)
            harms.append((harm, blob(text)))
        harms.sort(key=lambda harm: harm[1])
        checks.same(f"{number}: in order", told(*harms), live.asked(HOST, FSCK))
        checks.same(f"{number}: its end", done(), live.ended())
        checks.same(f"{number}: a check tells the first", failed(b" ".join([at_start(folder, harms[0][0]), harms[0][1]]).decode()), program.checked(folder.path))


def show_holders(checks, program, work):
    """What two hold is reported once, as long as one of them holds it."""
    folder = Folder(os.path.join(work, "holders"))
    live = begun(checks, program, folder, ALICE, BOB, texts=[LARGE, SMALL])
    name = blob(LARGE)
    harm = spoil(folder, name)
    checks.same("told once", told((harm, name)), live.asked(HOST, FSCK))
    for who, wanted in ((ALICE, told((harm, name))), (BOB, NOTHING)):
        checks.same("a tag goes", NOTHING, live.asked(who, given_up(LARGE)))
        checks.same("a prune", NOTHING, live.asked(who, b"prune\n"))
        checks.same(f"without {who}", wanted, live.asked(HOST, FSCK))
    checks.same("its name goes", b"ok\n1\n", live.asked(HOST, b"collect\n"))
    checks.same("the other stays", b"ok\n1\n", live.asked(HOST, b"census\n"))
    checks.same("nothing is told", NOTHING, live.asked(HOST, FSCK))
    checks.same("its end", done(), live.ended())
    checks.same("a check", sound(folder.again()), program.checked(folder.path))


def show_upload(checks, program, work):
    """What an open upload has staged is held, and with the upload it goes; at its end it is held as what a push brought."""
    folder = Folder(os.path.join(work, "upload"))
    live = begun(checks, program, folder, ALICE, texts=[SMALL])
    body = tagged(LARGE).removeprefix(b"push r\n")
    name = blob(LARGE)

    def sent():
        for part in (body[:100], body[100:]):
            checks.same("a part", NOTHING, live.asked(BOB, b"part\n" + part))
            checks.same("nothing is told", NOTHING, live.asked(HOST, FSCK))

    sent()
    remove(folder, name)
    checks.same("what is staged is held", told((b"lost", name)), live.asked(HOST, FSCK))
    checks.same("the upload goes", NOTHING, live.asked(BOB, b"part-drop\n"))
    checks.same("and nobody holds it", NOTHING, live.asked(HOST, FSCK))
    sent()
    remove(folder, blob(SMALL))
    checks.same("beside an upload", told((b"lost", blob(SMALL))), live.asked(HOST, FSCK))
    checks.same("its end", NOTHING, live.asked(BOB, b"part-end r\n"))
    remove(folder, name)
    harms = sorted([blob(SMALL), name])
    checks.same("after it", told(*((b"lost", harm) for harm in harms)), live.asked(HOST, FSCK))
    checks.same("its end", done(), live.ended())


def show_unchanged(checks, program, work):
    """After it everything is answered as before, and the next look falls where it fell."""
    texts = [b"%d kept" % number for number in range(8)]
    dropped = [b"%d dropped" % number for number in range(8)]
    runs = []
    for number in range(2):
        folder = Folder(os.path.join(work, f"unchanged{number}"))
        live = begun(checks, program, folder, ALICE, BOB, texts=texts)
        for text in dropped:
            live.asked(CAROL, b"push r\n\n" + record(b"blob", text))
        live.asked(CAROL, b"prune\n")
        harm = spoil(folder, blob(texts[3]))
        folder.flip(blob(texts[5]))
        said = []
        for _ in range(12):
            files = folder.files()
            if number:
                harms = sorted([(blob(texts[3]), harm), (blob(texts[5]), b"damaged")])
                checks.same("told", told(*((one, name) for name, one in harms)), live.asked(HOST, FSCK))
                checks.same("files stay", files, folder.files())
            said.append(told_to(live, [*looks_of(*texts, *dropped), (HOST, b"sweep 3\n")]))
        said.append(live.asked(HOST, b"collect\n"))
        checks.same("its end", done(), live.ended())
        runs.append((said, folder.state(), folder.files()))
    checks.same("with a check between and without", runs[0], runs[1])


def show_mended(checks, program, work):
    """A push puts a lost file again, a holder's own or another's. It does not write over a damaged one."""
    folder = Folder(os.path.join(work, "mended"))
    live = begun(checks, program, folder, ALICE, BOB, texts=[LARGE])
    name = blob(LARGE)
    again = b"push r\n\n" + record(b"blob", LARGE)
    for who in (ALICE, BOB, CAROL):
        remove(folder, name)
        checks.same("lost", told((b"lost", name)), live.asked(HOST, FSCK))
        checks.same(f"{who}: a push mends it", NOTHING, live.asked(who, again))
        checks.same("nothing is told", NOTHING, live.asked(HOST, FSCK))
        checks.same("its file", stored(b"blob", LARGE), content(folder.file_of(name)))
        for reader in (ALICE, BOB):
            checks.same("a read", NOTHING + record(b"blob", LARGE), live.asked(reader, b"cat-file %s\n" % name))
    folder.keep(name, b"blob 1\0x")
    checks.same("damaged", told((b"damaged", name)), live.asked(HOST, FSCK))
    checks.same("a push does not mend it", b"host damaged\n", live.asked(ALICE, again))
    checks.same("it is as it was", told((b"damaged", name)), live.asked(HOST, FSCK))
    checks.same("its file", b"blob 1\0x", content(folder.file_of(name)))
    remove(folder, name)
    checks.same("taken away", told((b"lost", name)), live.asked(HOST, FSCK))
    checks.same("a push mends it then", NOTHING, live.asked(ALICE, again))
    checks.same("nothing is told", NOTHING, live.asked(HOST, FSCK))
    checks.same("its end", done(), live.ended())
    checks.same("a check", sound(folder.again()), program.checked(folder.path))


def show_failing(checks, program, work):
    """If a file cannot be read, that is reported, and nothing else; after it all is as before."""
    folder = Folder(os.path.join(work, "failing"))
    live = begun(checks, program, folder, ALICE, texts=[LARGE, SMALL])
    name = blob(LARGE)
    file = content(folder.file_of(name))
    remove(folder, name)
    os.symlink(folder.file_of(name), folder.file_of(name))
    remove(folder, blob(SMALL))
    for _ in range(2):
        checks.same("the store fails", b"host store\n", live.asked(HOST, FSCK))
    os.remove(folder.file_of(name))
    folder.keep(name, file)
    checks.same("and then not", told((b"lost", blob(SMALL))), live.asked(HOST, FSCK))
    folder.keep(blob(SMALL), stored(b"blob", SMALL))
    checks.same("nothing is told", NOTHING, live.asked(HOST, FSCK))
    checks.same("its end", done(), live.ended())


def show_requests(checks, program, work):
    """It has one spelling, and is none of a tenant's."""
    live = Live(program, *TENANTS)
    for wrong in (b"fsck", b"fsck \n", b"fsck x\n", b"fsck\nx", b"fsck\n\n", b" fsck\n", b"Fsck\n", b"fsck 1\n"):
        checks.same(f"{wrong!r}", b"no bad-request\n", live.asked(HOST, wrong))
    checks.same("a tenant asks", b"no bad-request\n", live.asked(ALICE, FSCK))
    checks.same("who is not there", b"no unknown-tenant\n", live.asked(b"dave", FSCK))
    checks.same("of no objects", NOTHING, live.asked(HOST, FSCK))
    checks.same("its end", done(), live.ended())


def show_serving(checks, program, work):
    """The same over a socket, from one connection to the next."""
    folder = Folder(os.path.join(work, "serving"))
    serving = Serving(program, os.path.join(work, "socket"), 3, "--dir", folder.path, *TENANTS)
    turns = [(ALICE, b"init r\n"), (ALICE, tagged(LARGE)), (HOST, FSCK)]
    checks.same("at first", ([NOTHING] * 3, b""), replies(serving.told(frames(turns))))
    harm = spoil(folder, blob(LARGE))
    for _ in range(2):
        checks.same("told", ([told((harm, blob(LARGE)))], b""), replies(serving.told(frame(HOST, FSCK))))
    checks.same("its end", done(), serving.ended())


def held(folder):
    """The names of what tenants see, by the folder's state."""
    tenants, _ = read(folder.state())
    return sorted({name for tenant in tenants for name in tenant.seen})


def harms_of(folder):
    """What is wrong with the files of these, by a plain reader. None can be gone from a segment that is there."""
    files = folder.files()
    gone = [(b"damaged" if folder.segments() else b"lost", name) for name in held(folder) if name not in files]
    bad = [(b"damaged", name) for name in held(folder) if name in files and not whole(name, files[name])]
    return sorted(gone + bad, key=lambda harm: harm[1])


def show_by_chance(checks, program, work):
    """Folders with alterations at random: a plain reader finds what is reported, and `check` agrees."""
    chance = random.Random(13)
    for number in range(60):
        folder = Folder(os.path.join(work, f"chance{number}"))
        texts = [chance.randbytes(chance.choice([0, 1, 30, 3000])) + b"%d" % at for at in range(20)]
        live = begun(checks, program, folder, texts=[])
        for who in (ALICE, BOB, CAROL):
            some = chance.sample(texts, chance.randint(1, 20))
            checks.same("a push", NOTHING, live.asked(who, tagged(*some)))
        for _ in range(chance.randint(0, 20)):
            live.asked(ALICE, b"cat-file %s\n" % blob(chance.choice(texts)))
        for name in sorted(folder.files()):
            if chance.random() < 0.2:
                alter(folder, name, chance.choice(sorted(alterations(folder).items()))[1][0])
        said = live.asked(HOST, FSCK)
        checks.same(f"{number}: its end", done(), live.ended())
        checks.same(f"{number}: as a plain reader", told(*harms_of(folder)), said)
        found = verdict(folder.state(), folder.files())
        checks.same(f"{number}: `check`", of_verdict(found, folder.again()), program.checked(folder.path))
        checks.same(f"{number}: both find something, or neither", said == NOTHING, found == "sound")
        checks.same(f"{number}: what `check` finds is told", True, found == "sound" or found.split(" ")[1].encode() in said)
