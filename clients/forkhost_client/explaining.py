"""Why the host does not accept an object, found by a look at the object here."""
import re

from .repository import Repository

MODES = (b"40000", b"100644", b"100755", b"120000", b"160000")
NO_NAMES = (b"", b".", b"..", b".git")
IDENT = re.compile(rb"(?:|[^<>\n\0]* )<[^<>\n\0]*> (?:0|[1-9][0-9]*) [+-][0-9]{4}")
IDENTS = (b"author", b"committer", b"tagger")
RAW = 32


def quoted(path: str) -> str:
    """A path for a person, on one line whatever its bytes are."""
    text = path.encode("utf-8", "surrogateescape").decode("utf-8", "backslashreplace")
    shown = (letter if letter.isprintable() else letter.encode("unicode_escape").decode() for letter in text)
    return "'" + "".join(shown) + "'"


def entry_fault(tree: bytes, path: str) -> "str | None":
    """The first entry with a mode or a file name that the host does not take, with its path."""
    while tree:
        mode, _, rest = tree.partition(b" ")
        name, _, rest = rest.partition(b"\0")
        tree = rest[RAW:]
        file = quoted((path + "/" if path else "") + name.decode("utf-8", "surrogateescape"))
        if mode not in MODES:
            return f"the host does not accept mode {mode.decode(errors='replace')} of {file}"
        if name in NO_NAMES or b"/" in name:
            return f"the host does not accept the file name of {file}"
    return None


def line_fault(content: bytes) -> "str | None":
    """The first line of a header whose ident the host does not take."""
    for line in content.partition(b"\n\n")[0].split(b"\n"):
        word, _, ident = line.partition(b" ")
        if word in IDENTS and not IDENT.fullmatch(ident):
            return f"the host does not accept its line {quoted(line.decode('utf-8', 'surrogateescape'))}"
    return None


def explained(repository: Repository, name: str, path: str) -> str:
    """Why the host refused an object as not in its grammar, and where it stands."""
    with repository.records([name]) as batch:
        _, content = next(batch.contents(), (name, b""))
    kind = repository.answer("cat-file", "-t", name) or "object"
    if kind == "tree":
        return entry_fault(content, path) or f"the host does not accept the order of tree {name} at {quoted(path or '.')}"
    why = line_fault(content) or "the host does not accept its header"
    return f"{kind} {name}: {why}"
