"""A session with the program over pipes: one frame at a time, and its reply."""
from lib.live import Live
from lib.program import Program

LIMIT = 1_000_000_000


class Host:
    def __init__(self, program, tenants):
        self.live = Live(Program(program), *(f"{tenant}={LIMIT}" for tenant in tenants))

    def asked(self, who, payload):
        """The reply to a request of this tenant's."""
        return self.live.asked(who.encode(), payload)

    def query(self, who, *words):
        return self.asked(who, " ".join(words).encode() + b"\n")

    def pushed(self, who, repository, body, size):
        """The reply to a push of this body in parts of this size."""
        for at in range(0, len(body), size):
            reply = self.asked(who, b"part\n" + body[at : at + size])
            if reply != b"ok\n":
                return reply
        return self.query(who, "part-end", repository)

    def ended(self):
        """How the session ends after its input, and what comes after the last reply."""
        return self.live.ended()


def data_of(reply):
    """The data of a reply that is done."""
    if not reply.startswith(b"ok\n"):
        raise RuntimeError(f"the reply is {reply[:100]!r}")
    return reply[3:]
