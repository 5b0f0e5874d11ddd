"""Which syncs a host makes, and pasts in which those of one kind are left out."""
import copy

from losses.past import ROOT, Named, Synced
from losses.recording import PLACE

OBJECTS, FRONTS, FOLDER = "objects", "the folders of objects", "the folder of these"
SEGMENTS, SEGMENT = "segments", "the folder of segments"
# All that `repack` makes. Its files keep the name under which they were made: that of their folder changes.
MADE = "what is repacked"
LOG = "logs of uploads"
JOURNALS, JOURNAL, STATES, HOST = "journals", "the folder of journals", "states", "the folder of a host"
LOOSE, PACKED, REPACKED = [OBJECTS, FRONTS, FOLDER], [SEGMENTS, SEGMENT], [MADE]
BESIDE = [JOURNALS, JOURNAL, STATES, HOST]
# What stands for a sync that is left out.
NOTHING = Synced(-1)


def kinds_of(past):
    """What each file and folder is, by the names that it had."""
    places = {ROOT: ()}
    for folder, names in past.first_names.items():
        places.update((inode, (*places.get(folder, ()), name)) for name, inode in names.items())
    for event in past.events:
        if isinstance(event, Named):
            for folder, name, inode in event.entries:
                if inode is not None:
                    places[inode] = (*places.get(folder, ()), name)
    return {inode: kind_of(place[1:]) for inode, place in places.items() if place[:1] == (PLACE,)}


def kind_of(place):
    if place[:1] == (b"objects",):
        return [FOLDER, FRONTS, OBJECTS][len(place) - 1]
    if place[:1] == (b"segments",):
        return [SEGMENT, SEGMENTS][len(place) - 1]
    if place[:1] == (b"repack",):
        return MADE
    if place[:1] == (b"swept",):
        return [None, OBJECTS][len(place) - 1]
    if place[:1] == (b"journal",):
        return [JOURNAL, JOURNALS][len(place) - 1]
    return {(): HOST, (b"state",): STATES, (b"part",): STATES, (b"uploads.1",): LOG, (b"uploads.2",): LOG}.get(place)


def without(past, kind):
    """The same past, in which nothing of this kind was synced; None if nothing was."""
    kinds, other = kinds_of(past), copy.copy(past)
    is_left_out = [isinstance(event, Synced) and kinds.get(event.inode) == kind for event in past.events]
    other.events = [NOTHING if is_out else event for event, is_out in zip(past.events, is_left_out)]
    return other if any(is_left_out) else None
