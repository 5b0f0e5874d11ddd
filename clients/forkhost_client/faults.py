"""What can stand in the way of a request, apart from a refusal's meaning."""


class Fatal(Exception):
    """The work cannot go on; the text says why, for a person."""


def word_of(fault: Fatal) -> str:
    """What a log says of it: a fault of the host by its word."""
    return f"host-{fault.word}" if isinstance(fault, HostFault) else "failed"


class Internal(Fatal):
    """A fault whose text names places of this machine. A user who is elsewhere is told `shown` in its place."""

    def __init__(self, text: str, shown: str):
        self.shown = shown
        super().__init__(text)


def unreached(path: str, fault: OSError) -> Internal:
    """No host takes connections at this socket."""
    return Internal(f"cannot reach a host at '{path}': {fault.strerror or fault}", "the host cannot be reached")


class Lost(Fatal):
    """A reply was not read, so whether the request was carried out is not known."""


class GitFailed(Fatal):
    """A command of Git failed in the repository here."""


class HostFault(Fatal):
    """The host failed at a request, and changed nothing by it."""

    def __init__(self, word: str):
        self.word = word
        later = "the operator has to restore a file first" if word == "damaged" else "it may be sent again"
        super().__init__(f"the host failed ({word}) and this request changed nothing; {later}")


class Refused(Exception):
    """The host refused a request by a word, and a detail which may be empty."""

    def __init__(self, word: str, detail: str = ""):
        self.word, self.detail = word, detail
        super().__init__(f"{word} {detail}" if detail else word)
