"""Whether a loss of power may leave some files, as crates/devices/specs/Crash.antt defines it (`MayLeave`), of many effects.

The effects are gone through once from the oldest, for what is seen and for the bytes that each file is sure to have, and once
back, for the names. On the way back a change of names is taken as kept wherever what it leaves is right: then nothing older
matters for its paths, up to a sync of their folder, so no choice against it allows more. So nothing is tried twice, and the
answer is exact: `comparing.py` holds it against `definition.py`, which tries all choices."""
from typing import NamedTuple

from losses.effects import Added, FailedFile, FailedFolder, Moved, Removed, SyncedFile, SyncedFolder, Wrote


def folder_of(path):
    """The folder in which a path is (`IsIn`)."""
    return path[: path.rfind(b"/") + 1]


class File:
    """The bytes of a file that are seen (`bytes_after`), how many of them are sure, or None if any bytes may be there, and
    whether a sync of it failed (`has_failed`)."""

    def __init__(self, data, sure):
        self.whole, self.sure, self.has_failed = bytearray(data), sure, False

    def sync(self):
        if not self.has_failed:
            self.sure = len(self.whole)

    def may_bytes(self, data):
        """`MayBytes`: a front of all that was written, and at its least what was synced."""
        return self.sure is None or (len(data) >= self.sure and self.whole.startswith(data))


class Kept(NamedTuple):
    """A sync of a folder, and the names right in it that it kept."""

    folder: bytes
    names: dict


class Seen:
    """What is seen after effects, and the steps by which it came so: a change of names is a dictionary, a sync is `Kept`."""

    def __init__(self, base, effects):
        self.first = {path: File(data, len(data)) for path, data in base.items()}
        self.names, self.steps, self.failed, self.paths = {}, [], set(), {}
        self.change(self.first)
        self.steps = []
        for effect in effects:
            self.take(effect)

    def at(self, path):
        return self.names.get(folder_of(path), {}).get(path)

    def change(self, files):
        self.steps.append(files)
        for path, file in files.items():
            folder = folder_of(path)
            self.paths.setdefault(folder, set()).add(path)
            self.names.setdefault(folder, {})[path] = file

    def take(self, effect):
        if isinstance(effect, Wrote):
            self.change({effect.path: File(effect.data, None)})
        elif isinstance(effect, Added) and self.at(effect.path) is None:
            self.change({effect.path: File(effect.data, None)})
        elif isinstance(effect, Added):
            self.at(effect.path).whole += effect.data
        elif isinstance(effect, Moved) and self.at(effect.source) is not None:
            self.change({effect.source: None, effect.target: self.at(effect.source)})
        elif isinstance(effect, Removed) and self.at(effect.path) is not None:
            self.change({effect.path: None})
        elif isinstance(effect, SyncedFile) and self.at(effect.path) is not None:
            self.at(effect.path).sync()
        elif isinstance(effect, FailedFile) and self.at(effect.path) is not None:
            self.at(effect.path).has_failed = True
        elif isinstance(effect, FailedFolder):
            self.failed.add(effect.folder)
        elif isinstance(effect, SyncedFolder) and effect.folder not in self.failed:
            self.steps.append(Kept(effect.folder, dict(self.names.get(effect.folder, {}))))

    def sure_names(self):
        """The paths of which no change may be lost, and what is there."""
        sure = {path for paths in self.paths.values() for path in paths}
        for step in self.steps:
            if isinstance(step, Kept):
                sure |= self.paths.get(step.folder, set())
            else:
                sure -= set(step)
        return {path: self.at(path) for path in sorted(sure)}


class Search:
    """The way back from files that are left. Of each path it is known whether a newer change that is kept decides what is left
    there, or else which file older changes have to leave; if neither, it is any that may have what is left (`Stands`)."""

    def __init__(self, seen, left):
        self.seen, self.left, self.decided, self.wanted = seen, left, set(), {}

    def is_right(self, path, file):
        if path in self.decided:
            return True
        if path in self.wanted:
            return self.wanted[path] is file
        found = self.left.get(path)
        return found is None if file is None else found is not None and file.may_bytes(found)

    def wrong(self):
        """A path at which nothing allowed is left, or None if all may be left (`MayLeave`)."""
        for step in reversed(self.seen.steps):
            if isinstance(step, Kept):
                wrong = self.wrong_in(step)
                if wrong is not None:
                    return wrong
            elif all(self.is_right(path, file) for path, file in step.items()):
                self.decided.update(step)
        paths = {*self.left, *(path for paths in self.seen.paths.values() for path in paths)}
        return next((path for path in sorted(paths) if not self.is_right(path, self.seen.first.get(path))), None)

    def wrong_in(self, kept):
        """The same of a folder that was synced: older changes have left there what was seen then."""
        for path in sorted(self.seen.paths.get(kept.folder, ())):
            file = kept.names.get(path)
            if not self.is_right(path, file):
                return path
            self.decided.discard(path)
            self.wanted[path] = file
        return None


def wrong_path(seen, left):
    """A path at which a loss of power does not leave what is left, or None if it may leave all of it."""
    return Search(seen, left).wrong()
