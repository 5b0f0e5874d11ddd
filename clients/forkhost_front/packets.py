"""Lines as Git gives them to a hook, and takes them from it (gitprotocol-common(5), pkt-line)."""
from forkhost_client.faults import Fatal

FLUSH = b"0000"
HEAD = 4


def read_lines(source) -> list:
    """The lines up to a flush."""
    found = []
    while head := source.read(HEAD):
        if head == FLUSH:
            return found
        length = int(head, 16) - HEAD
        found.append(source.read(length).rstrip(b"\n"))
    raise Fatal("git receive-pack ended too early")


def write_lines(sink, lines) -> None:
    """Lines, and a flush."""
    for line in lines:
        sink.write(b"%04x%s" % (HEAD + len(line), line))
    sink.write(FLUSH)
    sink.flush()
