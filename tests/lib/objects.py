"""Objects: their names, their records as a push sends them, their files, and what they link to."""
import hashlib
import re

MODES = {b"40000": b"tree", b"100644": b"blob", b"100755": b"blob", b"120000": b"blob", b"160000": None}
NAME = rb"[0-9a-f]{64}"
IDENT = rb"(?:|[^<>\n\0]* )<[^<>\n\0]*> (?:0|[1-9][0-9]*) [+-][0-9]{4}"
COMMIT = re.compile(rb"tree (%s)\n((?:parent %s\n)*)author %s\ncommitter %s\n" % (NAME, NAME, IDENT, IDENT))
TAG = re.compile(rb"object (%s)\ntype (blob|tree|commit|tag)\ntag [^\n\0]+\n(?:tagger %s\n)?" % (NAME, IDENT))
HEADERS = re.compile(rb"(?:[^ \n\0]+ [^\n\0]*\n(?: [^\n\0]*\n)*)*(?:\n|\Z)")
WORDS = {b"commit": [b"tree", b"parent", b"author", b"committer"], b"tag": [b"object", b"type", b"tag", b"tagger"]}
USE = 64


def stored(kind, content):
    """The bytes of an object's file."""
    return b"%s %d\0" % (kind, len(content)) + content


def name_of(kind, content):
    return hashlib.sha256(stored(kind, content)).hexdigest().encode()


def record(kind, content):
    return b"%s %s %d\n%s\n" % (name_of(kind, content), kind, len(content), content)


def whole(name, file):
    """The kind and the content of the object of this name whose file this is, or None."""
    head, zero, content = file.partition(b"\0")
    kind, _, _ = head.partition(b" ")
    is_kind = kind in (b"blob", b"tree", b"commit", b"tag")
    if not zero or not is_kind or file != stored(kind, content) or name_of(kind, content) != name:
        return None
    return kind, content


def links_of_tree(content):
    links, names, last = [], set(), b""
    while content:
        head, zero, rest = content.partition(b"\0")
        mode, space, name = head.partition(b" ")
        key = name + b"/" if mode == b"40000" else name
        is_name = name not in (b"", b".", b"..", b".git") and b"/" not in name
        if not zero or not space or mode not in MODES or not is_name or len(rest) < 32:
            return None
        if name in names or key <= last:
            return None
        names.add(name)
        last = key
        if MODES[mode]:
            links.append((rest[:32].hex().encode(), MODES[mode]))
        content = rest[32:]
    return links


def has_headers(kind, rest):
    """Whether these are further headers, and then nothing or a message."""
    found = HEADERS.match(rest)
    keys = [line.split(b" ")[0] for line in found[0].split(b"\n")] if found else []
    return found is not None and not any(key in WORDS[kind] for key in keys)


def links_of(kind, content):
    """The links of an object, each a name and the kind that it wants; None where it is not in its grammar."""
    if kind == b"blob":
        return []
    if kind == b"tree":
        return links_of_tree(content)
    found = (COMMIT if kind == b"commit" else TAG).match(content)
    if not found or not has_headers(kind, content[found.end() :]):
        return None
    if kind == b"tag":
        return [(found[1], found[2])]
    return [(found[1], b"tree"), *((line[7:], b"commit") for line in found[2].splitlines())]
