"""What a host may show after a loss of power: what one session in memory shows that was asked the first of what was done."""
from folders.killing import HOST, TENANTS, looks
from lib.frames import frames, replies
from losses.done import acknowledged, done_in, savings_of
from losses.recording import GRANTS

# No state was saved, so there may be none.
NOTHING = -1


def finishing(history):
    """Requests that show all that tenants have, and then what their open uploads are."""
    ends = [(who, b"part-end q\n") for who in TENANTS]
    asks = [b"quota\n", b"for-each-ref q\n", b"repos\n"]
    return looks(history) + ends + [(who, ask) for who in TENANTS for ask in asks] + [(HOST, b"fsck\n")]


class Known:
    """What was done in a recording, and what a host shows after a part of it. `before` was done before, if there was a state."""

    def __init__(self, program, recording, before):
        self.program, self.before, self.is_begun = program, before or [], before is not None
        self.done = done_in(recording)
        self.acks = acknowledged(recording, self.done)
        self.savings = savings_of(recording.past)
        self.asks, self.shown = finishing(recording.history), {}

    def shows(self, count):
        """What a host shows that did so many of all."""
        if count not in self.shown:
            turns = self.turns(count)
            grants = [] if count == NOTHING else GRANTS
            ran = self.program.ran("run", *grants, given=frames(turns + self.asks))
            self.shown[count] = replies(ran.output)[0][-len(self.asks) :]
        return self.shown[count]

    def turns(self, count):
        """What it was asked."""
        return self.before + [turn for one in self.done[: max(count, 0)] for turn in one.turns]

    def most(self, moment):
        """How many of all may be there after so many events."""
        return sum(one.at < moment for one in self.done)

    def least(self, moment, is_synced):
        """How many of all must be there: those that the state has that was saved last, and where each reply waits for a
        sync, also those that were acknowledged."""
        saved = [sum(one.at < begun for one in self.done) for begun, end in self.savings if end < moment]
        acked = [number + 1 for number, at in enumerate(self.acks) if at is not None and at < moment]
        return max([0 if self.is_begun else NOTHING, *saved, *(acked if is_synced else [])])

    def may_show(self, moment, is_synced):
        return range(self.least(moment, is_synced), self.most(moment) + 1)
