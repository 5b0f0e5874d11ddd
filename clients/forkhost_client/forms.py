"""Words and numbers, told apart by hand: the module `re` takes as long to read in as a whole listing takes."""

NAME = 64
HEXADECIMAL = frozenset("0123456789abcdef")
SMALL = b"abcdefghijklmnopqrstuvwxyz-"
CALLED = frozenset("abcdefghijklmnopqrstuvwxyz0123456789_-")


def is_name(text: str) -> bool:
    """Whether it is the name of an object."""
    return len(text) == NAME and HEXADECIMAL.issuperset(text)


def is_called(text: str, most: int) -> bool:
    """Whether it may be what a tenant or a repository is called."""
    return 0 < len(text) <= most and CALLED.issuperset(text) and text[0] not in "_-"


def is_small(word: bytes) -> bool:
    """Whether it has small letters and hyphens alone."""
    return word != b"" and not word.strip(SMALL)


def number(digits: bytes, most: int) -> "int | None":
    """A number of this many digits at the most, none of them needless."""
    is_one = digits.isdigit() and len(digits) <= most and (digits[:1] != b"0" or len(digits) == 1)
    return int(digits) if is_one else None
