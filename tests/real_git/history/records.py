"""Objects as `git cat-file --batch` prints them: NAME SP TYPE SP LEN LF content LF."""
from typing import NamedTuple


class Record(NamedTuple):
    name: str
    kind: str
    content: bytes
    text: bytes


def read_records(text):
    at = 0
    while at < len(text):
        line = text.index(b"\n", at)
        name, kind, size = text[at:line].decode().split(" ")
        end = line + 1 + int(size)
        if text[end : end + 1] != b"\n":
            raise ValueError(f"the record of {name} ends without LF")
        yield Record(name, kind, text[line + 1 : end], text[at : end + 1])
        at = end + 1


def headers(content):
    """The words of a commit's or tag's lines up to its message."""
    return [line.split(" ") for line in content.split(b"\n\n", 1)[0].decode().split("\n")]
