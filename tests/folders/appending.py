"""Records that find no room."""
import os

from folders.filling import disk, fill
from folders.harms import ALICE, NOTHING, begun, looks_of, tagged, told_to
from lib.checks import Checks
from lib.folder import Folder, content
from lib.live import Live
from lib.program import done, sound

# Pushes that find no room, and one that does.
LARGE, AGAIN = [b"%d" % number * 60_000 for number in range(6)], b"again"


def show_full_appends(checks: Checks, program, work):
    """Appends that fail on a full disk take one number of a segment at most, and what is put later is there."""
    with disk(program, work, 16 << 20) as path:
        folder = Folder(os.path.join(path, "host"))
        live = begun(checks, program.packed(), folder, ALICE, texts=[b"one"])
        fill(os.path.join(path, "all"))
        for number, text in enumerate(LARGE):
            checks.same(f"no room for {number}", b"host store\n", live.asked(ALICE, tagged(text)))
        names = [os.path.basename(one) for one in folder.segments().paths()]
        checks.same("one more segment at most", ["00000001", "00000002"][: len(names)], names)
        checks.same("which is empty", [b""] * (len(names) - 1), [content(one) for one in folder.segments().paths()[1:]])
        os.remove(os.path.join(path, "all"))
        checks.same("with room", NOTHING, live.asked(ALICE, tagged(AGAIN)))
        asks = looks_of(b"one", AGAIN)[:-1]
        shows = told_to(live, asks)
        checks.same("its end", done(), live.ended())
        checks.same("the segments then", names, [os.path.basename(one) for one in folder.segments().paths()])
        checks.same("check", sound(), program.checked(folder.path))
        live = Live(program, "--dir", folder.path)
        checks.same("a start shows all", shows, told_to(live, asks))
        checks.same("the end then", done(), live.ended())
