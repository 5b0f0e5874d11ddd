"""What was done to a folder, call by call: its past, from which `leaving.py` makes what a loss of power may leave."""
import os
from typing import NamedTuple

# A folder and a file are numbers, as inodes are. The folder that is looked at has this one.
ROOT = 0


class Named(NamedTuple):
    """Names that changed in one step: for each, its folder, the name, and what it names, or None."""

    entries: tuple


class Wrote(NamedTuple):
    file: int
    at: int
    data: bytes


class Cut(NamedTuple):
    file: int
    length: int


class Synced(NamedTuple):
    """A file or a folder was synced."""

    inode: int


class Told(NamedTuple):
    """Bytes went out on a connection, by its number; on standard output, that is 0."""

    connection: int
    data: bytes


class Opened(NamedTuple):
    inode: int
    # Where the next byte is read or written; None if each write goes to the end.
    at: int


class Past:
    """The events of a folder since it was as `tree` says: names of files and their bytes, names of folders and their trees."""

    def __init__(self, path, tree):
        self.path, self.events = os.fsencode(path), []
        self.names, self.bytes, self.count = {}, {}, ROOT
        self.keep(tree)
        self.first_names = {folder: dict(names) for folder, names in self.names.items()}
        self.first_bytes = {file: bytes(data) for file, data in self.bytes.items()}
        self.descriptors, self.accepted, self.unsure = {}, 0, None

    def keep(self, tree):
        """A tree that is on the disk. Its number."""
        inode = self.new(isinstance(tree, dict))
        if isinstance(tree, dict):
            self.names[inode].update((name, self.keep(inner)) for name, inner in tree.items())
        else:
            self.bytes[inode] += tree
        return inode

    def new(self, is_folder):
        inode, self.count = self.count, self.count + 1
        if is_folder:
            self.names[inode] = {}
        else:
            self.bytes[inode] = bytearray()
        return inode

    def tree(self, inode=ROOT):
        """What is there."""
        if inode in self.bytes:
            return bytes(self.bytes[inode])
        return {name: self.tree(inner) for name, inner in self.names[inode].items()}

    def place(self, path, given="AT_FDCWD"):
        """The folder and the name of a path, which may be one in a folder that is open; None outside of what is looked at."""
        if (path + b"/").startswith(self.path + b"/"):
            folder, path = ROOT, path[len(self.path) :]
        elif given.isdigit() and isinstance(self.descriptors.get(int(given)), Opened):
            folder = self.descriptors[int(given)].inode
        else:
            return None
        inner = [part for part in path.split(b"/") if part not in (b"", b".")]
        for part in inner[:-1]:
            folder = self.names[folder][part]
        return folder, inner[-1] if inner else b""

    def inode(self, place):
        return self.names[place[0]].get(place[1]) if place[1] else place[0]

    def happened(self, event):
        """Does an event, and notes it."""
        self.events.append(event)
        if isinstance(event, Named):
            for folder, name, inode in event.entries:
                self.names[folder].pop(name, None)
                if inode is not None:
                    self.names[folder][name] = inode
        elif isinstance(event, Wrote):
            over(self.bytes[event.file], event)
        elif isinstance(event, Cut):
            over(self.bytes[event.file], event)

    def began(self):
        """A process begins, which has no file of this folder open."""
        self.descriptors, self.accepted, self.unsure = {1: "out"}, 0, None

    def take(self, call):
        """Notes what a call did. One of which no result is known is kept aside."""
        if call.result is None:
            self.unsure = call
        else:
            DOING.get(call.name, unknown)(self, call)

    def settle(self, tree):
        """The folder is as this tree says, after a process that may have been killed: so the last call was done, or not."""
        if self.unsure is not None and tree != self.tree():
            self.take(self.unsure._replace(result=self.length_of(self.unsure, tree)))
        if tree != self.tree():
            raise ValueError(f"the log of strace does not say what is in the folder; the last call is {self.unsure}")

    def length_of(self, call, tree):
        """How many bytes a call wrote that was not seen to return, by the file's length, or all if it says where; any number for
        other calls."""
        if call.name == "pwrite64":
            return int(call.words[2])
        file = self.descriptors.get(int(call.words[0])) if call.name in ("write", "writev") else None
        return len(self.found(tree, ROOT, file.inode)) - self.place_in(file) if isinstance(file, Opened) else 0

    def place_in(self, file):
        """Where the next byte is written."""
        return len(self.bytes[file.inode]) if file.at is None else file.at

    def found(self, tree, folder, inode):
        """The bytes that a file has in a tree."""
        for name, inner in self.names[folder].items():
            if inner == inode:
                return tree[name]
            there = self.found(tree[name], inner, inode) if inner in self.names else None
            if there is not None:
                return there
        return None


def over(data, event):
    """Bytes after a write, or after a cut."""
    if isinstance(event, Cut):
        del data[event.length :]
        data += bytes(event.length - len(data))
        return
    data += bytes(max(0, event.at - len(data)))
    data[event.at : event.at + len(event.data)] = event.data


def unknown(past, call):
    if any((text + b"/").startswith(past.path + b"/") for text in call.texts):
        raise ValueError(f"a call of which the recorder knows nothing: {call.name}")


def do_open(past, call):
    place, flags = past.place(call.texts[0], call.words[0]), call.words[2].split("|")
    if place is None:
        past.descriptors.pop(call.result, None)
        return
    inode = past.inode(place)
    if inode is None:
        inode = past.new(False)
        past.happened(Named(((*place, inode),)))
    elif "O_TRUNC" in flags and past.bytes[inode]:
        past.happened(Cut(inode, 0))
    past.descriptors[call.result] = Opened(inode, None if "O_APPEND" in flags else 0)


def do_close(past, call):
    past.descriptors.pop(int(call.words[0]), None)


def do_write(past, call):
    number = int(call.words[0])
    file, data = past.descriptors.get(number), b"".join(call.texts)[: call.result]
    if isinstance(file, Opened):
        at = past.place_in(file)
        past.happened(Wrote(file.inode, at, data))
        past.descriptors[number] = file._replace(at=None if file.at is None else at + len(data))
    elif file is not None:
        past.happened(Told(0 if file == "out" else file, data))


def do_write_at(past, call):
    file = past.descriptors.get(int(call.words[0]))
    if isinstance(file, Opened):
        past.happened(Wrote(file.inode, int(call.words[3]), b"".join(call.texts)[: call.result]))


def do_seek(past, call):
    file = past.descriptors.get(int(call.words[0]))
    if isinstance(file, Opened) and file.at is not None:
        past.descriptors[int(call.words[0])] = file._replace(at=call.result)


def do_sync(past, call):
    file = past.descriptors.get(int(call.words[0]))
    if isinstance(file, Opened):
        past.happened(Synced(file.inode))


def do_accept(past, call):
    past.descriptors[call.result] = past.accepted
    past.accepted += 1


def do_rename(past, call):
    source, target = map(past.place, call.texts)
    if source is not None and source != target:
        past.happened(Named(((*source, None), (*target, past.inode(source)))))


def do_remove(past, call):
    place = past.place(call.texts[0], call.words[0])
    if place is not None:
        past.happened(Named(((*place, None),)))


def do_mkdir(past, call):
    place = past.place(call.texts[0])
    if place is not None:
        past.happened(Named(((*place, past.new(True)),)))


DOING = {
    "openat": do_open,
    "close": do_close,
    "lseek": do_seek,
    "write": do_write,
    "writev": do_write,
    "pwrite64": do_write_at,
    "sendto": do_write,
    "sendmsg": do_write,
    "fsync": do_sync,
    "fdatasync": do_sync,
    "accept": do_accept,
    "accept4": do_accept,
    "rename": do_rename,
    "renameat": do_rename,
    "renameat2": do_rename,
    "unlink": do_remove,
    "unlinkat": do_remove,
    "rmdir": do_remove,
    "mkdir": do_mkdir,
    "mkdirat": do_mkdir,
}
