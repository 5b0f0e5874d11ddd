"""What a file system may leave of a folder after a loss of power.

In both models a sync keeps what was there then: that of a file its bytes, that of a folder the names in it. A folder whose own
name is lost is lost with all in it. A file of which nothing was synced may have any bytes. Bytes that were added to the end of
what was synced are lost from the end; but where they were added to a segment, any bytes may be in their place.

- `posix`: each change of names that was not synced happened or not, whatever was changed before or after it. A rename is one
  change of both names.
- `ext4`: the file system without ordered data. Names change in their order, up to some moment after the last sync of anything.
  Where bytes were added, zero bytes may stand for those that are lost."""
from typing import NamedTuple

from losses.past import ROOT, Cut, Named, Synced, Wrote, over
from losses.syncing import MADE, SEGMENTS, kinds_of

SECTOR = 512
NEAR = 200
LIKELY = [0, 0.1, 0.5, 0.9, 1]
# What is left beyond the definition: ext4 without ordered data does the first, and of segments a start is asked for more.
ZEROS, TORN = "zero bytes stand for lost ones", "bytes of a segment are lost from within"
KEPT, LOST, MIXED, ONE = "all is kept", "all is lost", "some is lost", "one is lost"


class Left(NamedTuple):
    """A folder, and of each file at whose end zero bytes stand for lost ones its path, its length without them, and their number.
    Also of each file that has bytes which the definition of a device does not allow (crates/devices/specs/Crash.antt: bytes that
    were appended are lost from behind), its path, its length without them, and why the recorder leaves them."""

    tree: dict
    zeros: dict
    beyond: dict


def syncs_of(events):
    """For each file and folder the number of the event that synced it last."""
    return {event.inode: at for at, event in enumerate(events) if isinstance(event, Synced)}


def is_synced(change, at, synced):
    return any(synced.get(folder, -1) > at for folder, _, _ in change.entries)


def lose(chance, things):
    """Which of these are lost."""
    things, way = list(things), chance.choice([KEPT, LOST, MIXED, MIXED, ONE])
    if way == ONE:
        return set(chance.sample(things, min(1, len(things))))
    part = {KEPT: 0, LOST: 1, MIXED: chance.choice(LIKELY)}[way]
    return {thing for thing in things if chance.random() < part}


def changes_kept(chance, model, events, synced):
    """The changes of names that reached the disk, in their order."""
    changes = [(at, event) for at, event in enumerate(events) if isinstance(event, Named)]
    if model == "ext4":
        end = chance.randint(max(synced.values(), default=-1) + 1, len(events))
        return [event for at, event in changes if at < end]
    lost = lose(chance, [at for at, event in changes if not is_synced(event, at, synced)])
    return [event for at, event in changes if at not in lost]


def names_after(past, changes):
    """The names of each folder."""
    names = {folder: dict(past.first_names.get(folder, {})) for folder in past.names}
    for change in changes:
        for folder, name, inode in change.entries:
            names[folder].pop(name, None)
            if inode is not None:
                names[folder][name] = inode
    return names


class Content:
    """The bytes of a file: those that were synced, and those that were written in all. It `is_kept` if it was synced, be it with
    no byte, or was there before."""

    def __init__(self, data, is_kept):
        self.synced, self.written, self.is_known, self.is_added = bytearray(data), bytearray(data), True, True
        self.is_kept = is_kept

    def write(self, event):
        self.is_added = self.is_added and isinstance(event, Wrote) and event.at >= len(self.synced)
        self.is_known = False
        over(self.written, event)

    def sync(self):
        self.synced, self.is_known, self.is_added, self.is_kept = bytearray(self.written), True, True, True


def contents_of(past, events):
    """The bytes of each file."""
    found = {file: Content(data, True) for file, data in past.first_bytes.items()}
    for event in events:
        if isinstance(event, (Wrote, Cut)):
            found.setdefault(event.file, Content(b"", False)).write(event)
        elif isinstance(event, Synced) and event.inode in found:
            found[event.inode].sync()
    return found


def torn(chance, data):
    """Bytes of which nothing was synced, as the disk may have them."""
    cut = chance.randint(0, len(data))
    front = bytes(data[:cut])
    ways = [b"", front, bytes(len(data)), front + bytes(len(data) - cut), with_holes(chance, data), chance.randbytes(len(data))]
    return chance.choice(ways)


def with_holes(chance, data):
    """Some sectors did not reach the disk."""
    pieces = [data[at : at + SECTOR] for at in range(0, len(data), SECTOR)]
    return b"".join(bytes(len(piece)) if chance.random() < 0.5 else bytes(piece) for piece in pieces)


def shortened(chance, content):
    """A file to which bytes were added, without some of them."""
    low, high = len(content.synced), len(content.written)
    few, many = min(high, low + NEAR), max(low, high - NEAR)
    cut = chance.choice([low, high, *(chance.randint(*ends) for ends in ((low, high), (low, few), (many, high)))])
    return bytes(content.written[:cut])


def bytes_left(chance, model, content):
    """The bytes of a file that was not synced to its end, and zero bytes that stand for others."""
    if not (content.is_added and content.is_kept):
        return torn(chance, content.written), b""
    data = shortened(chance, content)
    lost = len(content.written) - len(data)
    return data, bytes(chance.choice([0, lost, chance.randint(0, lost)]) if model == "ext4" else 0)


def segment_left(chance, content):
    """The bytes of a segment that was not synced to its end."""
    if not content.is_added:
        raise ValueError("a segment is written over")
    return bytes(content.synced) + torn(chance, content.written[len(content.synced) :]), b""


def same_front(data, other):
    """How many bytes are the same in both."""
    return next((at for at, (one, two) in enumerate(zip(data, other)) if one != two), min(len(data), len(other)))


def left(chance, model, past, events):
    """What may be left after these events, the first ones of a past."""
    synced = syncs_of(events)
    names = names_after(past, changes_kept(chance, model, events, synced))
    contents = contents_of(past, events)
    lost = lose(chance, [file for file, content in contents.items() if not content.is_known])
    data = {file: (bytes(content.written), b"") for file, content in contents.items()}
    kinds, torn_at = kinds_of(past), {}
    for file in sorted(lost):
        is_segment = kinds.get(file) in (SEGMENTS, MADE)
        data[file] = segment_left(chance, contents[file]) if is_segment else bytes_left(chance, model, contents[file])
        if is_segment and contents[file].is_kept and not contents[file].written.startswith(data[file][0]):
            torn_at[file] = same_front(data[file][0], contents[file].written)
    zeros, beyond = {}, {}
    tree = tree_at(names, data, zeros, ROOT, b"")
    beyond.update((path, (length, ZEROS)) for path, (length, _) in zeros.items())
    beyond.update((path, (torn_at[file], TORN)) for path, file in paths_at(names, ROOT, b"") if file in torn_at)
    return Left(tree, zeros, beyond)


def paths_at(names, inode, path):
    """The files in a folder, each with its path."""
    for name, inner in names[inode].items():
        if inner in names:
            yield from paths_at(names, inner, path + b"/" + name)
        else:
            yield path + b"/" + name, inner


def tree_at(names, data, zeros, inode, path):
    """The tree of a folder. Notes where zero bytes stand for others."""
    if inode in names:
        return {name: tree_at(names, data, zeros, inner, path + b"/" + name) for name, inner in names[inode].items()}
    front, rest = data.get(inode, (b"", b""))
    if rest:
        zeros[path] = len(front), len(rest)
    return front + rest
