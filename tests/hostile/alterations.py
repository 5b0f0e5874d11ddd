"""What may be in the place of a file: other bytes, nothing, and things that are not files."""
import os
import random
import shutil
import socket

LONGEST = len(b"commit 8388608\0") + 8_388_608
HUGE = 1 << 40
KINDS = (b"blob", b"tree", b"commit", b"tag")


def write(path, data):
    with open(path, "wb") as file:
        file.write(data)


def flipped(chance, data):
    at = chance.randrange(len(data))
    return data[:at] + bytes([data[at] ^ (1 << chance.randrange(8))]) + data[at + 1 :]


def of_other_kind(chance, data):
    kind, space, rest = data.partition(b" ")
    return chance.choice([other for other in KINDS if other != kind]) + space + rest


def of_other_length(chance, data):
    kind, _, rest = data.partition(b" ")
    length, zero, content = rest.partition(b"\0")
    wrong = chance.choice([b"0" + length, b"%d" % (int(length) + 1), b"+" + length, b"", b"18446744073709551616"])
    return kind + b" " + wrong + zero + content


# Other bytes than the file's, whatever it has.
BYTES = {
    "cut": lambda chance, data: data[: chance.randrange(1, len(data))],
    "a byte less": lambda chance, data: data[:-1],
    "a byte more": lambda chance, data: data + chance.randbytes(1),
    "flipped": flipped,
    "flipped in its head": lambda chance, data: flipped(chance, data[:5]) + data[5:],
    "emptied": lambda chance, data: b"",
    "doubled": lambda chance, data: data * 2,
    "its content alone": lambda chance, data: data.partition(b"\0")[2],
    "of another kind": of_other_kind,
    "of another length": of_other_length,
    "zeros": lambda chance, data: bytes(len(data)),
    "other bytes": lambda chance, data: flipped(chance, chance.randbytes(len(data))),
}


def sparse(path, length):
    with open(path, "wb") as file:
        file.truncate(length)


def listening(path):
    """The file of a socket. Its path may be longer than one that a socket is bound to."""
    place = os.open(os.path.dirname(path), os.O_RDONLY)
    with socket.socket(socket.AF_UNIX) as stream:
        stream.bind(f"/proc/self/fd/{place}/{os.path.basename(path)}")
    os.close(place)


def folder_with_file(path, data):
    os.mkdir(path)
    write(os.path.join(path, os.path.basename(path)), data)


def linked_fifo(path):
    beside = path + ".fifo"
    os.mkfifo(beside)
    os.symlink(beside, path)


def linked_folder(path):
    os.mkdir(path + ".folder")
    os.symlink(path + ".folder", path)


def linked_copy(path, data):
    write(path + ".copy", data)
    os.symlink(path + ".copy", path)


def without_rights(path, data):
    write(path, data)
    os.chmod(path, 0)


# What is not a file; each is made at a path at which nothing is, and is given the bytes that the file had.
THINGS = {
    "nothing": lambda path, data: None,
    "a folder": lambda path, data: os.mkdir(path),
    "a folder with its file": folder_with_file,
    "a pipe": lambda path, data: os.mkfifo(path),
    "a socket": lambda path, data: listening(path),
    "a link to a pipe": lambda path, data: linked_fifo(path),
    "a link to a folder": lambda path, data: linked_folder(path),
    "a link to zeros": lambda path, data: os.symlink("/dev/zero", path),
    "a link to an empty device": lambda path, data: os.symlink("/dev/null", path),
    "a link to a full device": lambda path, data: os.symlink("/dev/full", path),
    "a link to a terminal": lambda path, data: os.symlink("/dev/tty", path),
    "a link to itself": lambda path, data: os.symlink(os.path.basename(path), path),
    "a link to nothing": lambda path, data: os.symlink(path + ".absent", path),
    "a link to a copy": linked_copy,
    "one byte too long": lambda path, data: sparse(path, LONGEST + 1),
    "longer than memory": lambda path, data: sparse(path, HUGE),
    "without rights": without_rights,
}


def device(path):
    """A device that gives zeros without end; only one who may do all makes one."""
    os.mknod(path, 0o20666, os.makedev(1, 5))
    os.chmod(path, 0o666)


if os.geteuid() == 0:
    THINGS["a device"] = lambda path, data: device(path)

AIDS = (".fifo", ".folder", ".copy", ".absent")


def clear(path):
    """Nothing is at a path any more."""
    if os.path.isdir(path) and not os.path.islink(path):
        shutil.rmtree(path)
    elif os.path.lexists(path):
        os.remove(path)


def put_back(path, data):
    """The file as it was, and nothing beside it."""
    for aid in AIDS:
        clear(path + aid)
    clear(path)
    write(path, data)


def alter(kind, path, data, chance):
    """Puts something of this kind in a file's place."""
    if kind in BYTES:
        write(path, BYTES[kind](chance, data))
        return
    clear(path)
    THINGS[kind](path, data)


def kinds_of(data):
    """The kinds of which something else than this file can come."""
    chance = random.Random(0)
    return [kind for kind in BYTES if data and BYTES[kind](chance, data) != data] + list(THINGS)
