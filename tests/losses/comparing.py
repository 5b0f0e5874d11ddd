"""Folders that the recorder makes, held against the definition of what a loss of power may leave, and such as are altered so that
it refuses them."""
import random
from collections import Counter

from losses import definition
from losses.allowed import Seen, wrong_path
from losses.effects import Added, FailedFile, FailedFolder, FolderMoved, Moved, NotOfDevice, Removed, SyncedFile, SyncedFolder, Wrote
from losses.effects import effects_of, files_of
from losses.leaving import tree_at
from losses.past import ROOT
from losses.recording import PLACE

MOVED = "a layout was moved in one rename"
# One folder of so many is altered too.
ALTERED = 5
PATHS = [b"a", b"b", b"c/a", b"c/b"]
FOLDERS = [b"", b"c/"]
SMALL, MOST = 2000, 7


class Compared:
    """How many recordings were compared; how many folders the definition allows as they are, and how many only without bytes
    that it does not allow, or not at all since it does not speak of them, by the reason; how many altered ones it refuses, by the
    way in which they are; and which it refuses or allows wrongly."""

    def __init__(self):
        self.runs = self.allowed = 0
        self.beyond, self.refused, self.wrong = Counter(), Counter(), []

    def add(self, other):
        self.runs, self.allowed = self.runs + other.runs, self.allowed + other.allowed
        self.beyond += other.beyond
        self.refused += other.refused
        self.wrong += other.wrong

    def compare(self, chance, label, past, events, folder):
        """Holds one folder against the definition. Returns whether it speaks of the folder."""
        try:
            effects = effects_of(past, events)
        except FolderMoved:
            self.beyond[MOVED] += 1
            return False
        except NotOfDevice as error:
            self.wrong.append(f"{label}: {error}")
            return True
        first = {file: (data, b"") for file, data in past.first_bytes.items()}
        seen = Seen(files_of(tree_at(past.first_names, first, {}, ROOT, b"")), effects)
        left = files_of(folder.tree)
        reasons = cut(left, folder.beyond)
        path = wrong_path(seen, left)
        if path is not None:
            self.wrong.append(f"{label}: refused at {path.decode()}")
        elif reasons:
            self.beyond.update(reasons)
        else:
            self.allowed += 1
        if path is None and chance.randrange(ALTERED) == 0:
            self.alter(chance, label, seen, left)
        return True

    def alter(self, chance, label, seen, left):
        """Alters the folder in each way that is not allowed."""
        for way in (without_synced_byte, without_synced_name, with_other_byte, with_old_file):
            altered = way(chance, seen, left)
            if altered is None:
                continue
            if wrong_path(seen, altered) is None:
                self.wrong.append(f"{label}: allowed {way.__name__}")
            else:
                self.refused[way.__name__.replace("_", " ")] += 1


def cut(left, beyond):
    """Cuts from files the bytes that stand for lost ones as the definition does not have it. Why they are there."""
    reasons = set()
    for path, (length, reason) in beyond.items():
        path = path.removeprefix(b"/" + PLACE + b"/")
        if path in left:
            left[path] = left[path][:length]
            reasons.add(reason)
    return [" and ".join(sorted(reasons))] if reasons else []


def some(chance, things):
    return chance.choice(things) if things else None


def sure_files(seen, least):
    """The files that have their names for sure, and at least so many sure bytes."""
    return [(path, file) for path, file in seen.sure_names().items() if file and file.sure is not None and file.sure >= least]


def without_synced_byte(chance, seen, left):
    found = some(chance, sure_files(seen, 1))
    return found and {**left, found[0]: left[found[0]][: found[1].sure - 1]}


def without_synced_name(chance, seen, left):
    found = some(chance, [path for path, file in seen.sure_names().items() if file])
    return found and {path: data for path, data in left.items() if path != found}


def with_other_byte(chance, seen, left):
    found = some(chance, sure_files(seen, 0))
    return found and {**left, found[0]: bytes(found[1].whole) + b"\0"}


def with_old_file(chance, seen, left):
    """A file that was at a path before another took it, or before it was removed, and that was synced over."""
    sure, older = seen.sure_names(), []
    for step in (seen.first, *(step for step in seen.steps if isinstance(step, dict))):
        for path, file in step.items():
            if file and path in sure and not (sure[path] and sure[path].may_bytes(bytes(file.whole))):
                older.append((path, file))
    found = some(chance, older)
    return found and {**left, found[0]: bytes(found[1].whole)}


def small_effect(chance):
    path, folder, data = chance.choice(PATHS), chance.choice(FOLDERS), chance.choice([b"", b"x", b"y", b"xy"])
    changes = [Wrote(path, data), Added(path, data), Moved(path, chance.choice(PATHS)), Removed(path)]
    syncs, failures = [SyncedFile(path), SyncedFolder(folder)], [FailedFile(path), FailedFolder(folder)]
    return chance.choice([*changes, *syncs, *syncs, chance.choice(failures)])


def small_left(chance, base, effects):
    """Files that may be left, or some that are near."""
    names = chance.choice(list(definition.may_names(base, effects)))
    left = {}
    for path, file in names.items():
        if file is not None:
            whole = definition.bytes_after(base, effects, file)
            left[path] = chance.choice([whole, whole, whole[: chance.randint(0, len(whole))], b"z"])
    if chance.random() < 0.3:
        left.pop(chance.choice(PATHS), None)
    return left


def differing(seed):
    """Small pasts of which `allowed.py` does not say the same as the definition, and how many were allowed and refused."""
    chance, counts, wrong = random.Random(seed), Counter(), []
    for _ in range(SMALL):
        base = {path: chance.choice([b"", b"x", b"xy"]) for path in PATHS if chance.random() < 0.4}
        effects = [small_effect(chance) for _ in range(chance.randint(0, MOST))]
        left = small_left(chance, base, effects[::-1])
        may = definition.may_leave(base, effects[::-1], left)
        counts[may] += 1
        if may != (wrong_path(Seen(base, effects), left) is None):
            wrong.append((base, effects, left, may))
    return wrong, counts
