"""The text of a host's state, by tenants (docs/FORMATS.md, "State text")."""
import re

from forkhost_client.faults import Fatal

HEAD, END = b"forkhost state 2\n", b"end\n"
TENANT, SEE = b"tenant ", b"see "


class State:
    def __init__(self, text: bytes, place: str):
        """A whole text of version 2, as `forkhost check` takes it. `place` is for a person."""
        if not text.startswith(HEAD):
            raise Fatal(f"'{place}' has a state of another version; 'forkhost upgrade --dir {place}' makes it anew")
        # The lines of each tenant, the first of which names it.
        parts = re.split(rb"^(?=tenant )", text[len(HEAD) : -len(END)], flags=re.MULTILINE)[1:]
        self.blocks = {part[len(TENANT) :].partition(b" ")[0]: part for part in parts}

    def block(self, tenant: bytes) -> "bytes | None":
        return self.blocks.get(tenant)


def spelled(blocks: dict) -> bytes:
    """The text of a state that has these tenants."""
    return HEAD + b"".join(blocks[tenant] for tenant in sorted(blocks)) + END


def seen(block: bytes) -> list:
    """The names of all objects that a tenant sees, in digits."""
    return [line[len(SEE) :].decode() for line in block.split(b"\n") if line.startswith(SEE)]
