"""The form of a journal: a first line, perhaps one that refers to a log of uploads, and a log of pieces between sums."""
import hashlib
import re
from functools import lru_cache
from typing import NamedTuple

from lib.siphash import siphash

LINE = 75
HEAD = 36
SUM = 32
# What stands for a name before the first piece of a log of uploads.
NAMELESS = "0" * 64
REFERENCE = re.compile(rb"uploads ([12]) ([1-9][0-9]*) ([0-9a-f]{64})\n")


class Reference(NamedTuple):
    """A log of uploads, by its number, and how many bytes of it count, with the sum after the last piece of these."""

    number: int
    length: int
    sum: bytes


def lines_of(journal):
    """How long the lines of a journal are, and to which log of uploads it refers, if it does."""
    found = REFERENCE.match(journal, LINE)
    return (found.end(), Reference(int(found[1]), int(found[2]), bytes.fromhex(found[3].decode()))) if found else (LINE, None)


def first_line(standing):
    """The line of a journal that was begun while the state of this name, in digits, stood there."""
    return b"journal 2 " + standing.encode() + b"\n"


def sum_after(before, data):
    return hashlib.sha256(before + data).digest()


@lru_cache(1024)
def sum_of(head, piece):
    """The sum of a piece, as it is written."""
    return sum_after(head, siphash(head + piece).to_bytes(8, "big"))


def full_sum_of(head, piece):
    """The other sum that a piece may have."""
    return sum_after(head, piece)


def log(name, pieces, sums=(sum_of,)):
    """The log after this name, in digits, whose pieces have these sums in turn."""
    before, written = bytes.fromhex(name), b""
    for at, piece in enumerate(pieces):
        length = len(piece).to_bytes(4, "big")
        head = sum_after(before, length)
        before = sums[at % len(sums)](head, piece)
        written += length + head + piece + before
    return written


def pieces_in(name, written):
    """The pieces at the front of a log after this name, and how it ends: `whole`, `cut` or `altered`."""
    before, pieces, at = bytes.fromhex(name), [], 0
    while at < len(written):
        length = written[at : at + 4]
        head = sum_after(before, length)
        told = written[at + 4 : at + HEAD]
        torn = "cut" if written[at:][-SUM:] == bytes(SUM) else "altered"
        if len(length) == 4 and not head.startswith(told):
            return pieces, torn
        end = at + HEAD + int.from_bytes(length, "big")
        if end > len(written):
            return pieces, "cut"
        piece, before = written[at + HEAD : end], written[end : end + SUM]
        if not any(made(head, piece).startswith(before) for made in (sum_of, full_sum_of)):
            return pieces, torn
        if len(before) < SUM:
            return pieces, "cut"
        pieces.append(piece)
        at = end + SUM
    return pieces, "whole"


def bounds(written):
    """Where the pieces of a log begin and end, which is right."""
    ends = [0]
    while ends[-1] < len(written):
        at = ends[-1]
        ends.append(at + HEAD + int.from_bytes(written[at : at + 4], "big") + SUM)
    return ends
