"""What was done in a recording, and when: the requests that a journal has, which of them were acknowledged, and which a saved
state has."""
import hashlib
from typing import NamedTuple

from folders.killing import changes
from lib.chained import bounds, lines_of, pieces_in
from lib.folder import requests_in
from lib.frames import replies
from losses.past import ROOT, Named, Synced, Told, Wrote
from losses.recording import DROPS, PLACE


class Done(NamedTuple):
    """Turns that were done together, and the event from which on a journal, or a state, may have them."""

    turns: list
    at: int


class Moments:
    """For each file and folder that is named so now: what it is."""

    def __init__(self, past):
        self.names = {folder: dict(names) for folder, names in past.first_names.items()}

    def change(self, event):
        for folder, name, inode in event.entries:
            inner = self.names.setdefault(folder, {})
            inner.pop(name, None)
            if inode is not None:
                inner[name] = inode

    def at(self, *path):
        inode = ROOT
        for name in (PLACE, *path):
            inode = self.names.get(inode, {}).get(name)
        return inode


class Journal:
    """A journal that was begun: what it has when it gets its name, and what is added to it later."""

    def __init__(self, name, data):
        self.name, self.first, self.data, self.ends = name[:64].decode(), len(data), bytearray(data), []
        self.lines = lines_of(data)[0]

    def add(self, at, event):
        self.data += event.data
        self.ends.append((len(self.data), at))

    def done(self):
        """The requests that were added, each with the event that ended it."""
        written = bytes(self.data[self.lines :])
        pieces, end = pieces_in(self.name, written)
        if end == "altered":
            raise ValueError("a journal that was written is altered")
        ends, at = bounds(log_of(written, pieces)), 0
        places = []
        for piece, end in zip(pieces, ends[1:]):
            at += len(piece)
            places.append((at, self.lines + end))
        stream, length = b"".join(pieces), 0
        for request in requests_in(stream):
            length += len(request)
            written_by = next(end for at, end in places if at >= length)
            if written_by > self.first:
                yield request, next(at for end, at in self.ends if end >= written_by)


def log_of(written, pieces):
    """The whole pieces of a log."""
    return written[: sum(len(piece) + 68 for piece in pieces)]


def turn_of(request):
    head, _, payload = request.partition(b"\n")
    return head.split(b" ")[0], payload


def journals_of(past):
    """The journals that got their names, in order, each with what was added."""
    moments, written, named = Moments(past), {}, {}
    for at, event in enumerate(past.events):
        if isinstance(event, Named):
            moments.change(event)
            for folder, name, inode in event.entries:
                if folder == moments.at(b"journal") and name.endswith(b".2") and inode is not None:
                    named[inode] = Journal(name, written.get(inode, b""))
        elif isinstance(event, Wrote) and event.file in named:
            named[event.file].add(at, event)
        elif isinstance(event, Wrote):
            written[event.file] = written.get(event.file, b"") + event.data
    return list(named.values())


def done_in(recording):
    """All that was done, in order. An end in order saves a state last, and with it all uploads go."""
    found = [Done([turn_of(request)], at) for journal in journals_of(recording.past) for request, at in journal.done()]
    savings = savings_of(recording.past)
    for leg in recording.legs:
        if leg.is_ended:
            found.append(Done(DROPS, max(begun for begun, _ in savings if leg.begin <= begun < leg.end) - 1))
    return sorted(found, key=lambda one: one.at)


def savings_of(past):
    """The events by which a state was saved, with its journal: that by which it took its place, or by which a journal did that
    goes on from the state in place, and that by which this was synced."""
    moments, found, renamed = Moments(past), [], {}
    standing = begun = name_of(state_at_first(past))
    for at, event in enumerate(past.events):
        if isinstance(event, Named):
            moments.change(event)
            for folder, name, inode in event.entries:
                if inode is None:
                    continue
                if folder == moments.at() and name == b"state":
                    standing, renamed[folder] = begun, at
                if folder == moments.at(b"journal") and name.endswith(b".2"):
                    begun = name.removesuffix(b".2")
                    # One that goes on from another state is used once that state is in place.
                    if begun == standing:
                        renamed[folder] = at
        elif isinstance(event, Synced) and event.inode in renamed:
            found.append((renamed.pop(event.inode), at))
    return found


def state_at_first(past):
    """The state's text before the first event, or none."""
    return past.first_bytes.get(Moments(past).at(b"state"), b"")


def name_of(state):
    """The name of the journal that goes on from this state."""
    return hashlib.sha256(state).hexdigest().encode()


def answered(recording, leg):
    """The turns of a process that were answered and changed something, each with the event by which its reply was out."""
    streams, counts = {}, {}
    for at in range(leg.begin, leg.end):
        event = recording.past.events[at]
        if isinstance(event, Told):
            streams[event.connection] = streams.get(event.connection, b"") + event.data
            answers, streams[event.connection] = replies(streams[event.connection])
            for reply in answers:
                number = counts.get(event.connection, 0)
                counts[event.connection] = number + 1
                turn = leg.asked[event.connection][number]
                if changes(turn[1], reply):
                    yield turn, at


def acknowledged(recording, done):
    """For each of what was done, the event by which its reply was out, or None."""
    found, left = [None] * len(done), list(enumerate(done))
    for leg in recording.legs:
        for turn, at in answered(recording, leg):
            place = next((number for number, one in left if one.turns == [turn] and leg.begin <= one.at < at), None)
            if place is not None:
                found[place] = at
                left = [(number, one) for number, one in left if number != place]
    return found
