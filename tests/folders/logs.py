"""The log of a journal, altered at each place; and journals of other states."""
import hashlib
import os
import shutil

from lib.chained import HEAD, LINE, SUM, bounds, first_line, full_sum_of, log, pieces_in, sum_of
from folders.clients import ALICE
from lib.folder import Folder, content, write
from lib.frames import frame
from folders.journals import TURNS, journaled, show_done_again
from lib.program import done, failed, sound

UNREADABLE = failed("journal unreadable")
OTHER = failed("journal of another state")
STALE = frame(ALICE, b"init stale\n")


def show_told(checks, program, folder, label, fault):
    """A check and a start end with the fault, and the folder stays as it is."""
    before = {path: content(path) for path in files(folder)}
    checks.same(f"check of {label}", fault, program.checked(folder.path))
    checks.same(f"a start over {label}", fault, program.ran("run", "--dir", folder.path))
    checks.same(f"{label}: all stays", before, {path: content(path) for path in files(folder)})


def files(folder):
    """The state, the journals, and the logs of uploads that are files."""
    logs = [path for path in map(folder.uploads_path, folder.logs()) if os.path.isfile(path)]
    return [folder.inside("state"), *(folder.inside("journal", name) for name in folder.journals()), *logs]


def looked_at(whole):
    """Each byte of a first line and of what is around pieces, and each fifth one of these."""
    inside = set()
    for start, end in zip(places := bounds(whole[LINE:]), places[1:]):
        inside.update(range(LINE + start + HEAD, LINE + end - SUM))
    return [at for at in range(len(whole)) if at not in inside or at % 5 == 0]


def show_flips(checks, program, work):
    """A bit of a journal differs, at each place: that is reported. The name in the first line may differ, and then nothing is
    missing."""
    folder, _ = journaled(checks, program, os.path.join(work, "flipped"))
    path, whole = folder.journal_path(), content(folder.journal_path())
    for at in looked_at(whole):
        bit = 1 << at % 8
        write(path, whole[:at] + bytes([whole[at] ^ bit]) + whole[at + 1 :])
        told = program.checked(folder.path)
        wanted = sound(len(TURNS)) if 10 <= at < 74 and told.status == 0 else UNREADABLE
        checks.same(f"byte {at} by {bit}", wanted, told)
    write(path, whole)
    checks.same("as it was", sound(len(TURNS)), program.checked(folder.path))


def show_moved(checks, program, work):
    """Pieces of a journal change places, come twice or are left out, and it goes on with what is no piece: all that is told."""
    folder, _ = journaled(checks, program, os.path.join(work, "moved"))
    whole = folder.log()
    places = bounds(whole)
    pieces = [whole[start:end] for start, end in zip(places, places[1:])]
    rows = {}
    for at, piece in enumerate(pieces):
        rows[f"piece {at} twice"] = pieces[: at + 1] + pieces[at:]
        rows[f"piece {at} at the end"] = pieces + [piece]
        if at:
            rows[f"piece {at} before the one before it"] = [*pieces[: at - 1], piece, pieces[at - 1], *pieces[at + 1 :]]
        if at + 1 < len(pieces):
            rows[f"no piece {at}"] = pieces[:at] + pieces[at + 1 :]
            rows[f"no last byte of piece {at}"] = [*pieces[:at], piece[:-1], *pieces[at + 1 :]]
    tails = [b"\0" * 31, b"\0" * 50 + b"\1", b"alice 5\nabc", STALE, log("0" * 64, [STALE]), whole]
    rows |= {f"the tail {tail[:10]!r}": [*pieces, tail] for tail in tails}
    rows["what is no frame"] = [log(folder.name(), [b"\0" * 50])]
    rows["what is no frame, before others"] = [log(folder.name(), [b"x\n", STALE])]
    for label, row in rows.items():
        folder.set_log(b"".join(row))
        show_told(checks, program, folder, label, UNREADABLE)
    show_zeros(checks, program, folder, pieces)
    folder.set_log(log(folder.name(), [STALE[:5], b"", STALE[5:]]))
    checks.same("a frame in pieces, one of them empty", sound(1), program.checked(folder.path))


def show_zeros(checks, program, folder, pieces):
    """A loss of power leaves zeros where what was appended did not reach the disk: the log is right up to there."""
    count = len(TURNS)
    for length in (32, 50, 4096, 70_000):
        folder.set_log(b"".join(pieces) + bytes(length))
        checks.same(f"{length} zeros behind the last piece", sound(count), program.checked(folder.path))
    last = pieces[-1]
    for lost in (SUM, SUM + 1, len(last) - 1, len(last)):
        folder.set_log(b"".join(pieces[:-1]) + last[: len(last) - lost] + bytes(lost))
        checks.same(f"zeros in the last {lost} bytes", sound(count - 1), program.checked(folder.path))


def show_sums(checks, program, work):
    """A piece has one of two sums, of which the first is written, and either is read. With another sum it is altered."""
    base, _ = journaled(checks, program, os.path.join(work, "base"))
    name, count = base.name(), len(TURNS)
    pieces, _ = pieces_in(name, base.log())
    checks.same("the sum that is written", log(name, pieces), base.log())
    rows = {"full sums": [full_sum_of], "full ones second": [sum_of, full_sum_of], "full ones first": [full_sum_of, sum_of]}
    for label, sums in rows.items():
        folder, whole = Folder(shutil.copytree(base.path, os.path.join(work, label))), log(name, pieces, sums)
        for lost in (1, SUM - 1, SUM):
            folder.set_log(whole[:-lost])
            checks.same(f"{label}, without {lost} bytes", sound(count - 1), program.checked(folder.path))
        for at in (end - back for end in bounds(whole)[1:] for back in (1, SUM, SUM + 1)):
            folder.set_log(whole[:at] + bytes([whole[at] ^ 1]) + whole[at + 1 :])
            checks.same(f"{label}, byte {at}", UNREADABLE, program.checked(folder.path))
        folder.set_log(whole)
        show_done_again(checks, program, folder, label, count)


def put(folder, name, standing, turns):
    """Puts a journal of this state's name, that was begun over the other one."""
    path = folder.inside("journal", name + ".2")
    write(path, first_line(standing) + log(name, turns))
    return path


def show_others(checks, program, work):
    """A journal of another state is reported, beside the folder's own and without it. What a killed saving leaves is not."""
    base, _ = journaled(checks, program, os.path.join(work, "base"))
    copy = Folder(os.path.join(work, "copy"))
    checks.same("another host", done(), program.ran("run", "--dir", copy.path, "zoe=1000"))
    path = copy.inside("journal", os.path.basename(base.journal_path()))
    shutil.copy(base.journal_path(), path)
    show_told(checks, program, copy, "a journal of a copy", OTHER)
    os.remove(copy.journal_path())
    show_told(checks, program, copy, "it alone", OTHER)
    os.rename(path, path.removesuffix(".2"))
    show_told(checks, program, copy, "it in the form before", OTHER)
    state = copy.state()
    os.remove(copy.inside("state"))
    checks.same("it without a state", OTHER, program.ran("run", "--dir", copy.path))
    checks.same("it without a state: a check", failed("no state"), program.checked(copy.path))
    copy.set_state(state)
    os.truncate(path.removesuffix(".2"), 0)
    checks.same("an empty one", sound(), program.checked(copy.path))
    checks.same("a start over it", done(), program.ran("run", "--dir", copy.path))
    checks.same("it is gone", [os.path.basename(copy.journal_path())], copy.journals())
    altered = Folder(shutil.copytree(base.path, os.path.join(work, "altered")))
    altered.set_state(altered.state().replace(b"60000", b"60001"))
    show_told(checks, program, altered, "an altered state", OTHER)
    show_left_over(checks, program, base)


def show_left_over(checks, program, base):
    """Beside its own journal is what a killed saving leaves."""
    own, other = base.name(), hashlib.sha256(b"other").hexdigest()
    whole = base.log()
    rows = {
        "one of a state to come": (own, own),
        "that of the state before": (other, "0" * 64),
    }
    for label, (before, begun) in rows.items():
        write(base.journal_path(), first_line(before) + whole)
        path = put(base, other, begun, [STALE])
        checks.same(f"{label}: check", sound(len(TURNS)), program.checked(base.path))
        checks.same(f"{label}: it stays", True, os.path.exists(path))
        start = Folder(shutil.copytree(base.path, base.path + "-start"))
        checks.same(f"{label}: a start", done(), program.ran("run", "--dir", start.path))
        checks.same(f"{label}: it goes", [os.path.basename(start.journal_path())], start.journals())
        shutil.rmtree(start.path)
        os.remove(path)
    base.set_log(whole)
    path = put(base, other, "0" * 64, [STALE])
    show_told(checks, program, base, "neither", OTHER)
    os.remove(path)
    put(base, other, "0" * 64, [])
    checks.same("neither, of nothing", sound(len(TURNS)), program.checked(base.path))
