"""The journal of a folder: what it has and when, where it is cut, and what is done again."""
import os
import random
import shutil

from folders.asking import History, Requests
from folders.cases import C, D, OBJECTS, USED
from lib.chained import bounds
from folders.clients import ALICE, BOB, PUSH
from folders.devices import homes
from folders.killing import answered
from folders.sweeps import COUNT, HOST, show_collected
from lib.folder import Folder, requests_in, write
from lib.frames import frame, framed, frames, replies
from lib.live import Live, Serving
from lib.objects import name_of, record
from lib.program import done, failed, sound

INIT = (ALICE, b"init r\n")
GREAT = (b"blob", bytes(3_000_000))


def killed(live):
    live.child.kill()
    live.child.communicate()


def show_journal(checks, program, work):
    """When a reply is there, the journal has its request, where that changed something, and nothing else."""
    folder, chance = Folder(os.path.join(work, "kept")), random.Random(5)
    requests = Requests(chance, History(chance, 8), [ALICE, BOB])
    live = Live(program, "--dir", folder.path, "alice=60000", "bob=60000")
    checks.same("init", b"ok\n", live.asked(*INIT))
    checks.same("the state was saved before the first request", True, folder.state() is not None)
    kept = frame(*INIT)
    checks.same("its journal has that request", kept, folder.journal())
    for who, payload in requests.turns(300):
        _, does = answered(live, who, payload)
        kept += frame(who, payload) if does else b""
        checks.same(f"the journal after {payload[:20]!r}", kept, folder.journal())
    checks.same("bad requests are not in it", b"no bad-request\n", live.asked(ALICE, b"x" * 1000))
    checks.same("nor are the host's", b"no bad-request\n", live.asked(HOST, b"x"))
    for payload in (b"sweep 5\n", b"collect\n", b"census\n"):
        checks.same(f"nor is {payload!r}", True, COUNT.fullmatch(live.asked(HOST, payload)) is not None)
    checks.same("nor those of others", b"no unknown-tenant\n", live.asked(b"carol", b"init r\n"))
    checks.same("the journal stays", kept, folder.journal())
    killed(live)
    count = len(requests_in(kept))
    checks.same("check counts it", sound(count), program.checked(folder.path))
    checks.same("check leaves it", kept, folder.journal())
    checks.same("a start that serves nothing", done(), program.ran("run", "--dir", folder.path))
    checks.same("there is one journal after it", [os.path.basename(folder.journal_path())], folder.journals())


def show_prunes(checks, program, work):
    """However often a tenant prunes, only what removed something is in the journal."""
    folder = Folder(os.path.join(work, "pruned"))
    live = Live(program, "--dir", folder.path, "alice=60000")
    turns = [INIT, (ALICE, PUSH), (ALICE, b"prune\n")]
    for turn in [*turns, *[(ALICE, b"prune\n")] * 130]:
        checks.same(f"{turn[1][:10]!r}", b"ok\n", live.asked(*turn))
    killed(live)
    checks.same("the journal has one prune", frames(turns), folder.journal())
    checks.same("check counts it", sound(len(turns)), program.checked(folder.path))


TURNS = [INIT, (ALICE, PUSH), (BOB, b"init s\n"), (ALICE, b"fork r s\n"), (BOB, b"part\nabc")]


def journaled(checks, program, path):
    """A folder with a journal of some requests, and where these end in it."""
    folder = Folder(path)
    live = Live(program, "--dir", folder.path, "alice=60000", "bob=60000")
    for turn in TURNS:
        checks.same(f"{turn[1][:10]!r}", b"ok\n", live.asked(*turn))
    killed(live)
    checks.same("the journal", frames(TURNS), folder.journal())
    ends = [0]
    for turn in TURNS:
        ends.append(ends[-1] + len(frame(*turn)))
    return folder, ends


def show_done_again(checks, program, folder, label, count):
    """A check counts the first requests, and a start does them again; one journal is left of all that are there."""
    write(folder.inside("journal", "0" * 64), b"")
    write(folder.inside("journal", "part"), b"torn")
    checks.same(f"check of {label}", sound(count), program.checked(folder.path))
    asks = [(who, b"for-each-ref %s\n" % place) for who in (ALICE, BOB) for place in (b"r", b"s", b"stale")]
    asks += [(BOB, b"part-drop\n"), (ALICE, b"cat-file %s\n" % C), (ALICE, b"quota\n")]
    ran = program.ran("run", "--dir", folder.path, given=frames(asks))
    memory = program.ran("run", "alice=60000", "bob=60000", given=frames(TURNS[:count] + asks))
    wanted = b"".join(map(framed, replies(memory.output)[0][count:]))
    checks.same(f"what is there after {label}", done(wanted), ran)
    checks.same("one journal is left", [os.path.basename(folder.journal_path())], folder.journals())


def show_cuts(checks, program, work):
    """A journal that is cut at any byte is done again up to there. One of the form before also where it goes on with what is
    no frame."""
    base, ends = journaled(checks, program, os.path.join(work, "base"))
    whole, log, places = base.journal(), base.log(), bounds(base.log())
    for cut in sorted({*range(0, len(log), 37), *places, *(end - 1 for end in places[1:])}):
        folder = Folder(shutil.copytree(base.path, os.path.join(work, f"cut{cut}")))
        folder.set_log(log[:cut])
        show_done_again(checks, program, folder, f"{cut} bytes", max(at for at, end in enumerate(places) if end <= cut))
        shutil.rmtree(folder.path)
    tails = [b"", b"x", b"alice 5\nabc", b"\0" * 50, b"alice 9\n"]
    rows = [whole[:cut] for cut in sorted({*range(0, len(whole), 37), *ends, *(end - 1 for end in ends[1:])})]
    rows += [whole[:end] + tail for end in ends for tail in tails]
    for number, row in enumerate(rows):
        folder = Folder(shutil.copytree(base.path, os.path.join(work, f"old{number}")))
        os.remove(folder.journal_path())
        write(folder.old_journal_path(), row)
        count = max(at for at, end in enumerate(ends) if row.startswith(whole[:end]))
        show_done_again(checks, program, folder, f"{row[-10:]!r}", count)
        shutil.rmtree(folder.path)
    path = base.journal_path()
    os.remove(path)
    os.mkdir(path)
    checks.same("a journal that can't be read", failed("journal unreadable"), program.checked(base.path))
    checks.same("a start", failed("journal unreadable"), program.ran("run", "--dir", base.path))


def show_altered(checks, program, work):
    """A request that is refused where it was done before is told, unless it is the last one of its journal."""
    folder = Folder(os.path.join(work, "altered"))
    live = Live(program, "--dir", folder.path, "alice=60000", "bob=60000")
    for turn in (INIT, (ALICE, PUSH), (BOB, b"init s\n"), (ALICE, b"init last\n")):
        checks.same(f"{turn[1][:10]!r}", b"ok\n", live.asked(*turn))
    killed(live)
    whole = folder.journal()
    at = whole.index(record(*OBJECTS[C])) + 90
    flipped = whole[:at] + bytes([whole[at] ^ 1]) + whole[at + 1 :]
    rows = {"a content": flipped, "a name": whole.replace(b"init s", b"init S"), "a tenant": whole.replace(b"bob", b"rob")}
    for label, row in rows.items():
        folder.set_journal(row)
        checks.same(f"check of {label}", failed("journal unreadable"), program.checked(folder.path))
        checks.same(f"a start over {label}", failed("journal unreadable"), program.ran("run", "--dir", folder.path))
        checks.same("the journal stays", row, folder.journal())
    folder.set_journal(whole.replace(b"init last", b"init lasT"))
    asks = [(ALICE, b"for-each-ref last\n"), (BOB, b"for-each-ref s\n")]
    told = done(b"".join(map(framed, (b"no no-repository last\n", b"ok\n"))))
    checks.same("the last request", told, program.ran("run", "--dir", folder.path, given=frames(asks)))


def show_uploads(checks, program, work):
    """Open uploads outlive kills, however long they are."""
    folder = Folder(os.path.join(work, "kept"))
    body = b"\n" + record(*GREAT)
    cuts = [body[at : at + 900_000] for at in range(0, len(body), 900_000)]
    live = Live(program, "--dir", folder.path, "alice=10000000", "bob=10000")
    checks.same("init", b"ok\n", live.asked(*INIT))
    checks.same("an upload of no bytes", b"ok\n", live.asked(BOB, b"part\n"))
    for number, piece in enumerate(cuts):
        checks.same(f"piece {number}", b"ok\n", live.asked(ALICE, b"part\n" + piece))
        killed(live)
        live = Live(program, "--dir", folder.path)
        checks.same("it is open", b"no upload-open\n", live.asked(ALICE, b"push r\n\n"))
    checks.same("its end", b"ok\n", live.asked(ALICE, b"part-end r\n"))
    checks.same("what it brought", b"ok\n" + record(*GREAT), live.asked(ALICE, b"cat-file %s\n" % name_of(*GREAT)))
    checks.same("the other one", b"ok\n", live.asked(BOB, b"part-drop\n"))
    checks.same("the end", done(), live.ended())
    checks.same("nothing is to be done again", b"", folder.journal())
    checks.same("check", sound(), program.checked(folder.path))


OPENED = [(ALICE, b"part\n" + PUSH.partition(b"\n")[2]), (BOB, b"part\n")]
LOOKS = [(ALICE, b"push r\n\n"), (ALICE, b"part-end r\n"), (BOB, b"part-drop\n"), (ALICE, b"quota\n"), (BOB, b"for-each-ref s\n")]
CLOSED = [b"ok\n", b"no no-upload\n", b"no no-upload\n", b"ok\n0 10000\n"]
OPEN = [b"no upload-open\n", b"ok\n", b"ok\n", b"ok\n%d 10000\n" % USED]
TENANTS = ["alice=10000", "bob=10000"]
CHANGE = (BOB, b"init s\n")


def opened(checks, program, folder):
    """A host with open uploads, and nothing else after its state."""
    told = program.ran("run", "--dir", folder.path, *TENANTS, given=frame(*INIT))
    checks.same("init", done(framed(b"ok\n")), told)
    live = Live(program, "--dir", folder.path)
    for turn in OPENED:
        checks.same("a part", b"ok\n", live.asked(*turn))
    return live


def by_its_input(program, live, folder):
    return done(), live.ended()


def by_a_bad_frame(program, live, folder):
    return failed("bad frame", b"! bad-frame\n"), live.ended(b"alice")


def after_a_change(program, live, folder):
    return done(framed(b"ok\n")), live.ended(frame(*CHANGE))


def over_an_altered_upload(program, live, folder):
    write(folder.file_of(C), b"")
    return done(), live.ended()


def after_a_kill(program, live, folder):
    killed(live)
    return done(), program.ran("run", "--dir", folder.path)


def by_its_last_connection(program, live, folder):
    killed(live)
    serving = Serving(program, folder.path + "-socket", 2, "--dir", folder.path)
    told = [serving.told(frame(*turn)) for turn in ((ALICE, b"push r\n\n"), CHANGE)]
    return done(framed(b"no upload-open\n") + framed(b"ok\n")), serving.ended()._replace(output=b"".join(told))


ENDS = (by_its_input, by_a_bad_frame, after_a_change, over_an_altered_upload, after_a_kill, by_its_last_connection)


def shown(program, folder):
    """What a start shows, but whether there is a second repository."""
    ran = program.ran("run", "--dir", folder.path, given=frames(LOOKS))
    return ran._replace(output=replies(ran.output)[0][:-1])


def show_ends(checks, program, work):
    """After an end no upload is open: nothing is repeated, and a start shows what the state shows without a journal."""
    for end in ENDS:
        folder, label = Folder(os.path.join(work, end.__name__)), end.__name__.replace("_", " ")
        live = opened(checks, program, folder)
        checks.same(f"{label}: its end", *end(program, live, folder))
        checks.same(f"{label}: check", sound(), program.checked(folder.path))
        checks.same(f"{label}: the journal", (b"", 1), (folder.journal(), len(folder.journals())))
        bare = Folder(shutil.copytree(folder.path, folder.path + "-bare"))
        shutil.rmtree(bare.inside("journal"))
        for kept in (folder, bare):
            checks.same(f"{label}: what a start shows", done(CLOSED), shown(program, kept))
        show_collected(checks, program, folder, label)


def show_failed_ends(checks, program, work):
    """After an end that cannot be saved all that was acknowledged is there, open uploads too."""
    for place, turns in ((("journal", "part"), []), (("journal", "part"), [CHANGE]), (("part",), [CHANGE])):
        folder = Folder(os.path.join(work, "-".join((*place, str(len(turns))))))
        live = opened(checks, program, folder)
        os.mkdir(folder.inside(*place))
        wanted = failed("state not saved", framed(b"ok\n") * len(turns))
        checks.same("its end", wanted, live.ended(frames(turns)))
        os.rmdir(folder.inside(*place))
        checks.same("check", sound(len(OPENED + turns)), program.checked(folder.path))
        checks.same("what a start shows", done(OPEN), shown(program, folder))


def show_faults(checks, program, work):
    """What was answered by a host fault is never done again."""
    folder = Folder(os.path.join(work, "kept"))
    live = Live(program, "--dir", folder.path, "alice=10000")
    head, rest = PUSH.split(b"\n", 1)[1].split(b"\n\n", 1)
    checks.same("init", b"ok\n", live.asked(*INIT))
    checks.same("a part", b"ok\n", live.asked(ALICE, b"part\n" + head + b"\n\n"))
    before = folder.journal()
    for home in homes(folder):
        os.rmdir(home)
        write(home, b"")
    checks.same("a part whose objects can't be stored", b"host store\n", live.asked(ALICE, b"part\n" + rest))
    checks.same("it is not kept", before, folder.journal())
    for home in homes(folder):
        os.remove(home)
    killed(live)
    live = Live(program, "--dir", folder.path)
    checks.same("no reference is there", b"ok\n", live.asked(ALICE, b"for-each-ref r\n"))
    checks.same("the upload is open", b"no upload-open\n", live.asked(ALICE, b"push r\n\n"))
    checks.same("it goes on", b"ok\n", live.asked(ALICE, b"part\n" + rest))
    checks.same("it ends well", b"ok\n", live.asked(ALICE, b"part-end r\n"))
    killed(live)
    live = Live(program, "--dir", folder.path)
    checks.same("what it brought", b"ok\n" + record(*OBJECTS[D]), live.asked(ALICE, b"cat-file %s\n" % D))
    checks.same("the end", done(), live.ended())
