"""A connection that goes on for long: the state is saved between its frames, so that the journal stays short, and so that a
start does not repeat what takes long."""
import os
import threading

from folders.clients import ALICE, BOB
from lib.folder import Folder
from lib.frames import frame, framed, frames
from lib.live import Serving
from lib.objects import name_of, record
from lib.program import done, sound

# Bytes of a journal after which the state is saved, and those of a part; all that is sent is more than both together.
LONG, PART, COUNT = 1_048_576, 1_000_000, 10
# Objects that the requests of a journal may visit, and those that a pruning visits here.
VISITED, MANY = 16_777_216, 8_000
PRUNES = VISITED // MANY + 400
# Forks of a repository with 4,096 references.
FORKS = 31
DROP = b"part-drop\n"


def asked(number):
    """An upload of one part, which is dropped."""
    body = b"part\n\n" + record(b"blob", b"%06d" % number + bytes(PART - 6))
    return frame(ALICE, body) + frame(ALICE, DROP)


def show_long_connection(checks, program, work):
    folder, path = Folder(os.path.join(work, "kept")), os.path.join(work, "socket")
    serving = Serving(program, path, 1, "--dir", folder.path, "alice=100000000")
    lengths = lambda: sum(it.stat().st_size for it in os.scandir(folder.inside("journal")))
    longest = 0
    with serving.client() as stream, stream.makefile("rb") as reader:
        for number in range(COUNT):
            sending = threading.Thread(target=stream.sendall, args=(asked(number),))
            sending.start()
            told = reader.read(2 * len(framed(b"ok\n")))
            sending.join()
            checks.same(f"upload {number}", framed(b"ok\n") * 2, told)
            longest = max(longest, lengths())
        checks.same("the journal has at most what is long, and a request", True, PART < longest < LONG + 2 * PART)
        checks.same("the state is there", True, folder.state().startswith(b"forkhost state 2\n"))
        stream.sendall(frame(ALICE, b"init r\n"))
        checks.same("the same connection goes on", framed(b"ok\n"), reader.read(len(framed(b"ok\n"))))
        os.kill(serving.child.pid, 9)
        serving.child.wait()
    checks.same("after a kill", sound(folder.again()), program.checked(folder.path))
    checks.same("the next start has it", done(framed(b"no repository-exists r\n")), program.ran("run", "--dir", folder.path, given=frame(ALICE, b"init r\n")))


def pruned(checks, program, work, begun, who, prunes):
    """How many requests a start has to repeat, after a tenant of this host has pruned so often."""
    folder, path = Folder(os.path.join(work, "pruned")), os.path.join(work, "socket")
    made = program.ran("run", "--dir", folder.path, "alice=100000000", "bob=1000", given=frames(begun))
    checks.same("a folder", done(framed(b"ok\n") * len(begun)), made)
    serving = Serving(program, path, 1, "--dir", folder.path)
    turns = [(who, b"push r\n\n" + record(b"blob", b"x")), (who, b"prune\n")] * prunes
    with serving.client() as stream, stream.makefile("rb") as reader:
        sending = threading.Thread(target=stream.sendall, args=(frames(turns),))
        sending.start()
        told = reader.read(len(turns) * len(framed(b"ok\n")))
        sending.join()
        checks.same("all are answered", framed(b"ok\n") * len(turns), told)
        os.kill(serving.child.pid, 9)
        serving.child.wait()
    again = folder.again()
    checks.same("after a kill", sound(again), program.checked(folder.path))
    return again


def show_many_prunes(checks, program, work):
    """Requests that are short and visit all objects of a tenant: a start has few of them to repeat. They cost the others no saving
    if the tenant has few objects."""
    blobs = [b"%d" % number for number in range(MANY)]
    tree = b"".join(b"100644 %05d\0" % at + bytes.fromhex(name_of(b"blob", blob).decode()) for at, blob in enumerate(blobs))
    tag = b"push r\ncreate refs/tags/t " + name_of(b"tree", tree) + b"\n\n"
    begun = [(ALICE, b"init r\n"), (BOB, b"init r\n"), (ALICE, tag + b"".join(record(b"blob", it) for it in blobs) + record(b"tree", tree))]
    for who in (ALICE, BOB):
        os.mkdir(place := os.path.join(work, who.decode()))
        again = pruned(checks, program, place, begun, who, PRUNES)
        few, all_of_them = range(1, 2 * (VISITED // MANY) + 400), [2 * PRUNES]
        checks.same(f"{who}: a start repeats {again}", True, again in (few if who == ALICE else all_of_them))


def show_prunes_of_references(checks, program, work):
    """The same of a tenant with one object and many references."""
    name = name_of(b"blob", b"kept")
    tags = [b"".join(b"create refs/tags/%d %s\n" % (at, name) for at in range(first, first + 256)) for first in range(0, 4096, 256)]
    begun = [(BOB, b"init r\n"), (BOB, b"push r\n\n" + record(b"blob", b"kept"))]
    begun += [(BOB, b"update-refs r\n" + it) for it in tags] + [(BOB, b"fork r f%d\n" % number) for number in range(FORKS)]
    enough = VISITED // (4096 * (FORKS + 1))
    again = pruned(checks, program, work, begun, BOB, enough + 120)
    checks.same(f"a start repeats {again}", True, again in range(1, 2 * enough))
