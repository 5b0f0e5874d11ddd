"""What was done to the device of a host's folder, in the words of crates/devices/specs/Device.antt, by the events of a recording.

A path is relative to the host's folder. A folder is written with a slash at its end, and the host's own as nothing. A file that
is made, or emptied, is written without bytes, and each write(2) to it adds some: the definition allows the same of these as of
one `Wrote` of them all, and so it speaks of the moments between them too. To make or remove a folder is no effect."""
from typing import NamedTuple

from losses import past as recorded
from losses.past import ROOT
from losses.recording import PLACE

# Files in a host's folder that no device writes, so that the definition does not speak of them: the lock, of which a byte is
# written over (crates/devices/src/real.rt, `locked`, and crates/host_folder/src/watch.rt), and the reserve, whose zeros only keep
# room (crates/host_folder/src/reserve.rt).
OTHERS = (b"lock", b"reserve", b"reserve.part")
# The other layout of a folder, which is made by a device of its own (crates/packed_store/src/layout_change.rt).
BESIDE = b"repack/"


class Wrote(NamedTuple):
    path: bytes
    data: bytes


class Added(NamedTuple):
    path: bytes
    data: bytes


class Moved(NamedTuple):
    source: bytes
    target: bytes


class Removed(NamedTuple):
    path: bytes


class SyncedFile(NamedTuple):
    path: bytes


class SyncedFolder(NamedTuple):
    folder: bytes


class FailedFile(NamedTuple):
    path: bytes


class FailedFolder(NamedTuple):
    folder: bytes


class NotOfDevice(Exception):
    """A file of the device was written in a way in which no device writes."""


class FolderMoved(Exception):
    """A folder was renamed, with all in it. No device does that: a repack does (crates/packed_store/src/layout_change.rt)."""


def is_of_device(path):
    """Whether the definition speaks of this file or folder."""
    return path is not None and path not in OTHERS and not path.startswith(BESIDE)


def files_in(tree, folder=b""):
    """The files of a tree by their paths."""
    found = {}
    for name, inner in tree.items():
        found |= files_in(inner, folder + name + b"/") if isinstance(inner, dict) else {folder + name: inner}
    return found


def files_of(tree):
    """The files of the device of a host's folder, in a tree that has this folder or has not."""
    return {path: data for path, data in files_in(tree.get(PLACE, {})).items() if is_of_device(path)}


class Places:
    """Which files and folders have names, and where."""

    def __init__(self, past):
        self.folders, self.names, self.homes = set(past.names), {}, {}
        for folder, names in past.first_names.items():
            for name, inode in names.items():
                self.change(folder, name, inode)

    def change(self, folder, name, inode):
        names = self.names.setdefault(folder, {})
        self.homes.pop(names.pop(name, None), None)
        if inode is not None:
            names[name], self.homes[inode] = inode, (folder, name)

    def path(self, inode):
        """The path of a file or a folder; None if it has no name, or lies outside of the host's folder."""
        end, names = b"/" if inode in self.folders else b"", []
        while inode != ROOT:
            if inode not in self.homes:
                return None
            inode, name = self.homes[inode]
            names.insert(0, name)
        if names[:1] != [PLACE]:
            return None
        return b"/".join(names[1:]) + end if names[1:] else b""

    def path_in(self, folder, name):
        """The path of a name in a folder."""
        home = self.path(folder)
        return None if home is None else home + name


class Reading:
    """The events of a recording, read as effects."""

    def __init__(self, past):
        self.places, self.lengths = Places(past), {file: len(data) for file, data in past.first_bytes.items()}

    def effects_of(self, event):
        """What one event did to the device."""
        if isinstance(event, recorded.Named):
            found = self.of_names(event.entries)
            for entry in event.entries:
                self.places.change(*entry)
            return found
        if isinstance(event, recorded.Wrote):
            return self.of_bytes(event, self.places.path(event.file))
        if isinstance(event, recorded.Cut):
            return self.of_cut(event, self.places.path(event.file))
        if isinstance(event, recorded.Synced):
            return self.of_sync(event.inode, self.places.path(event.inode))
        return []

    def of_names(self, entries):
        inodes = [self.places.names.get(folder, {}).get(name) if inode is None else inode for folder, name, inode in entries]
        paths = [self.places.path_in(folder, name) for folder, name, _ in entries]
        if any(inode in self.places.folders for inode in inodes):
            if len(entries) == 2:
                raise FolderMoved
            return []
        if not any(map(is_of_device, paths)):
            return []
        if len(entries) == 2:
            return [Moved(*paths)]
        return [Removed(*paths) if entries[0][2] is None else Wrote(*paths, b"")]

    def of_bytes(self, event, path):
        length = self.lengths.get(event.file, 0)
        self.lengths[event.file] = max(length, event.at + len(event.data))
        if not is_of_device(path):
            return []
        if event.at != length:
            raise NotOfDevice(f"no device writes within a file: {path}")
        return [Added(path, event.data)]

    def of_cut(self, event, path):
        self.lengths[event.file] = event.length
        if not is_of_device(path):
            return []
        if event.length:
            raise NotOfDevice(f"no device shortens a file: {path}")
        return [Wrote(path, b"")]

    def of_sync(self, inode, path):
        if not is_of_device(path):
            return []
        return [SyncedFolder(path) if inode in self.places.folders else SyncedFile(path)]


def effects_of(past, events):
    """What the first events of a recording did to the device, the oldest first."""
    reading = Reading(past)
    return [effect for event in events for effect in reading.effects_of(event)]
