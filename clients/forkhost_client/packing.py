"""An object as it stands in a pack (gitformat-pack(5))."""
import zlib
from hashlib import sha256

from .faults import Fatal
from .records import Record

NUMBERS = {"commit": 1, "tree": 2, "blob": 3, "tag": 4}
# How far zlib looks back, as a power of two, and the memory by which it finds it: most objects are small, and of the
# time of a small one half went into clearing a larger memory.
WINDOW, MEMORY = 13, 7
# A stored block (RFC 1950, RFC 1951): that and a length are its head. No such block is longer.
STORED, LONGEST = b"\x78\x01\x01", 65535


def head(kind: str, length: int) -> bytes:
    """Its type and its length."""
    found = bytearray([NUMBERS[kind] << 4 | length & 15])
    length >>= 4
    while length:
        found[-1] |= 128
        found.append(length & 127)
        length >>= 7
    return bytes(found)


def compressed(kind: str, content: bytes) -> bytes:
    """Most of a tree is names of objects, which get no shorter by any time that they are given."""
    if kind == "tree" and len(content) <= LONGEST:
        length = len(content).to_bytes(2, "little") + (len(content) ^ LONGEST).to_bytes(2, "little")
        return b"".join([STORED, length, content, zlib.adler32(content).to_bytes(4, "big")])
    way = zlib.compressobj(zlib.Z_BEST_SPEED, zlib.DEFLATED, WINDOW, MEMORY)
    return way.compress(content) + way.flush()


def packed(record: Record) -> tuple:
    """An object's name, the CRC-32 of its bytes in a pack, and these. The host is not trusted to name it."""
    content = record.content
    digest = sha256(b"%s %d\0" % (record.kind.encode(), len(content)))
    digest.update(content)
    if digest.hexdigest() != record.name:
        raise Fatal(f"the host sent another object for {record.name}")
    data = head(record.kind, len(content)) + compressed(record.kind, content)
    return digest.digest(), zlib.crc32(data), data


def all_packed(records: list) -> list:
    return [packed(record) for record in records]
