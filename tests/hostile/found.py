"""What is found if something else is in an object's place."""
from typing import NamedTuple

from hostile.alterations import BYTES


class Found(NamedTuple):
    """What a start and `check` report, what whoever sees the object gets, and the object's line in `fsck`."""

    start: tuple
    asked: tuple
    listed: tuple


STORE, DAMAGED = b"host store\n", b"host damaged\n"
RIGHT = "the record"
SPOILED = Found(("damaged",), (DAMAGED,), ("damaged",))
GONE = Found(("lost",), (DAMAGED,), ("lost",))
FAILING = Found(("store",), (STORE,), (STORE,))

# A link is followed or not: where its file has the right bytes, nothing else can be told of them; and where it leads to
# nothing, there is no file or no right one.
FOUND = {
    **{kind: SPOILED for kind in BYTES},
    "nothing": GONE,
    "a folder": SPOILED,
    "a folder with its file": SPOILED,
    "a pipe": SPOILED,
    "a socket": SPOILED,
    "a device": SPOILED,
    "a link to a pipe": SPOILED,
    "a link to a folder": SPOILED,
    "a link to zeros": SPOILED,
    "a link to an empty device": SPOILED,
    "a link to a full device": SPOILED,
    "a link to a terminal": SPOILED,
    "a link to itself": Found(("damaged", "store"), (DAMAGED, STORE), ("damaged", STORE)),
    "a link to nothing": Found(("lost", "damaged"), (DAMAGED,), ("lost", "damaged")),
    "a link to a copy": Found(("sound", "damaged"), (RIGHT, DAMAGED), (None, "damaged")),
    "one byte too long": SPOILED,
    "longer than memory": SPOILED,
    "without rights": FAILING,
}
