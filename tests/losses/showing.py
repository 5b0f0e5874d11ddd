"""Some lives at once, and what is found in all of them."""
import os
import tempfile
from concurrent.futures import ProcessPoolExecutor
from itertools import repeat

from lib.places import in_memory
from losses.comparing import differing
from losses.lives import Found, Life, Way
from losses.syncing import BESIDE, LOG, LOOSE, PACKED, REPACKED

LIVES, FOLDERS, TRIES = 20, 40, 6
LONGEST = 300
# At least so many recorded runs are compared with the definition. A run is what some processes did to one folder, one after another,
# between two losses of power.
RUNS, RUNS_WITHOUT_SYNC = 100, 50


def lived(program, seed, way):
    """What is found in one life, and the error at which it broke off, or None."""
    with tempfile.TemporaryDirectory(dir=in_memory()) as work:
        life, broken = Life(program, work, seed, way), None
        try:
            life.live()
        except (OSError, ValueError, LookupError) as error:
            broken = error
        program.stop()
        return life.found, broken


def found_of(program, seed, way):
    """What is found in one life. If it only broke off, as when strace on a busy machine misses a call of a process that is
    killed, it is lived once more."""
    found, broken = lived(program, seed, way)
    if broken and not (found.wrong or found.compared.wrong):
        found, broken = lived(program, seed, way)
    if broken:
        found.note(seed, f"a life breaks off: {broken!r}"[:LONGEST])
    return found


def show(checks, program, label, seed, sync, kept, repacks=False, uploads=False):
    """All lives of hosts that serve in one way. With long uploads a few, of which only the sync of their logs is left out. Where folders are repacked between, half as many, and four times the tries: few
    moments are such that a repack has no sync to spare."""
    kinds = REPACKED if repacks else [*(PACKED if program.more else LOOSE), *BESIDE]
    lives, tries = (LIVES // 2, TRIES * 4) if repacks else (LIVES, TRIES)
    folders = FOLDERS
    if uploads:
        kinds, lives, folders = [LOG], LIVES // 5, FOLDERS // 2
    found, way = Found(), Way(sync, repacks, uploads, kinds, folders, tries, kept)
    with ProcessPoolExecutor(os.cpu_count()) as pool:
        for one in pool.map(found_of, repeat(program), (f"{label}, {seed}.{number}" for number in range(lives)), repeat(way)):
            found.add(one)
    checks.add(found.right, 0)
    for why, count in found.wrong.most_common():
        checks.holds(f"{label}: {why}", f"{count} times, as in {found.first[why]}")
    checks.same(f"{label}: each kind of sync is made", [], [kind for kind in kinds if kind not in found.made])
    for kind in sorted(found.made):
        checks.same(f"{label}: a start is wrong without the syncs of {kind}", True, kind in found.missed)
    print(f"{label}: {found.right + found.wrong.total()} folders; {found.reported} had a few zero bytes that were reported", flush=True)
    return found.compared


def show_compared(checks, compared, seed, runs):
    """Every folder that was made of a recorded run is one that the definition allows, and altered ones are refused."""
    wrong, counts = differing(seed)
    checks.same("small pasts of which the search and the definition differ", [], wrong[:1])
    checks.same("small pasts that the definition allows, and such as it refuses", [True, True], [counts[True] > 0, counts[False] > 0])
    checks.same(f"{compared.runs} recorded runs are {runs} at least", True, compared.runs >= runs)
    for why in compared.wrong:
        checks.holds("a folder that was made, or altered, and the definition", why)
    for way in ("without synced byte", "without synced name", "with other byte", "with old file"):
        checks.same(f"folders {way} are refused", True, compared.refused[way] > 0)
    checks.add(compared.allowed + compared.refused.total(), 0)
    print(f"compared: {compared.runs} runs; {compared.allowed} folders are allowed as they are; {compared.refused.total()} altered are refused")
    for reason, count in sorted(compared.beyond.items()):
        print(f"compared: {count} folders beyond the definition: {reason}")
