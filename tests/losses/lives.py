"""Hosts that serve, lose power, start again on what is left, and serve on; and what starts show on many such folders."""
import os
import random
import re
import shutil
from collections import Counter
from typing import NamedTuple

from losses.comparing import Compared
from losses.judging import Judge
from losses.knowing import Known
from losses.leaving import Left, left
from losses.past import Named, Synced, Wrote
from losses.recording import GRANTS, PLACE, Recording, write_tree
from losses.syncing import NOTHING, without

MODELS = ["posix", "ext4"]
NEAR = 12
GENERATIONS = 2

class Way(NamedTuple):
    """How hosts serve, whether their folders are repacked between, whether they have a long upload, which kinds of syncs they make, how many folders are judged of
    each recording, how many are made without the syncs of one kind until one is wrong, and where wrong ones are kept."""

    sync: list
    repacks: bool
    uploads: bool
    kinds: list
    folders: int
    tries: int
    kept: str


class Found:
    """What was found on all folders: how many were right, what was wrong and how often, and one of each kind; how many starts
    reported zero bytes; of each kind of sync whether hosts make it, and whether it was missed; and how the folders compare with the
    definition."""

    def __init__(self):
        self.right, self.wrong, self.first, self.reported = 0, Counter(), {}, 0
        self.made, self.missed, self.compared = set(), set(), Compared()

    def note(self, label, why):
        if why is None:
            self.right += 1
            return
        self.wrong[why] += 1
        self.first.setdefault(why, label)

    def add(self, other):
        self.right, self.reported = self.right + other.right, self.reported + other.reported
        self.wrong += other.wrong
        self.first = other.first | self.first
        self.made, self.missed = self.made | other.made, self.missed | other.missed
        self.compared.add(other.compared)


def is_near(event):
    """A sync, or a name that changed and that is not new."""
    return isinstance(event, Synced) or (isinstance(event, Named) and event.entries[0][2] is None)


def moment_in(chance, past):
    """A moment between two events, mostly near one that matters."""
    near = [at for at, event in enumerate(past.events) if is_near(event)]
    if near and chance.random() < 0.5:
        return min(len(past.events), max(0, chance.choice(near) + chance.randint(-NEAR, NEAR)))
    return chance.randint(0, len(past.events))


def moment_after(chance, past):
    """A moment after a sync that is left out, mostly soon."""
    begin = chance.choice([at for at, event in enumerate(past.events) if event is NOTHING])
    end = len(past.events)
    return chance.randint(begin + 1, chance.choice([min(end, begin + NEAR), min(end, begin + 4 * NEAR), end]))


def events_before(chance, past, moment):
    """The events before a moment, and perhaps the front of a write that was being done then."""
    events = past.events[:moment]
    if moment < len(past.events) and isinstance(past.events[moment], Wrote) and chance.random() < 0.5:
        event = past.events[moment]
        events.append(event._replace(data=event.data[: chance.randrange(len(event.data) or 1)]))
    return events


class Life:
    """One host from its first start on, over some losses of power."""

    def __init__(self, program, work, seed, way):
        self.program, self.work, self.seed, self.way = program, work, seed, way
        self.chance, self.found = random.Random(seed), Found()
        # Whoever sets up a host may have made its folder.
        self.tree, self.before = self.chance.choice([{}, {PLACE: {}}]), None

    def live(self):
        """Serves, and is judged, some times over."""
        for number in range(GENERATIONS):
            home = os.path.join(self.work, str(number))
            os.mkdir(home)
            goes_on = self.generation(f"{self.seed}, {number}", home)
            shutil.rmtree(home)
            if not goes_on:
                break
            self.tree, self.before = self.chance.choice(goes_on)

    def generation(self, label, home):
        """Serves for some time, and judges folders that may be left. Those on which a host may go on, and what it did."""
        recording = Recording(self.program, home, self.chance, self.tree, self.way)
        recording.serve(GRANTS if self.before is None else [])
        past, known = recording.past, Known(self.program, recording, self.before)
        judge = Judge(self.program, home, known, self.way.sync)
        why, count = judge.judge(self.chance, Left(past.tree(), {}, {}), len(past.events))
        self.found.note(f"{label}: what was recorded", why or self.why_not_all(known, count))
        goes_on = list(self.judged(label, judge, past, known))
        self.found.reported += judge.reported
        for kind in self.way.kinds:
            self.miss(label, judge, past, kind)
        return goes_on

    def why_not_all(self, known, count):
        return None if known.shows(count) == known.shows(len(known.done)) else "the recording is not what was done"

    def judged(self, label, judge, past, known):
        compared = False
        for number in range(self.way.folders):
            chance = random.Random(f"{label}, {number}")
            moment, model = moment_in(chance, past), chance.choice(MODELS)
            events = events_before(chance, past, moment)
            folder = left(chance, model, past, events)
            altering = random.Random(f"{label}, {number}, altered")
            compared |= self.found.compared.compare(altering, f"{label}, {number}: {model}", past, events, folder)
            why, count = judge.judge(chance, folder, moment)
            self.found.note(f"{label}, {number}: {model}, after {moment} of {len(past.events)} events", why)
            if why is not None:
                self.keep(why, folder)
            elif count >= 0 and PLACE in folder.tree and not folder.zeros:
                yield folder.tree, known.turns(count)
        self.found.compared.runs += compared

    def keep(self, why, folder):
        """Keeps the first wrong folder of each kind."""
        if self.way.kept and self.found.wrong[why] == 1:
            os.makedirs(self.way.kept, exist_ok=True)
            path = os.path.join(self.way.kept, re.sub("[^a-z0-9]+", "-", f"{why} {self.seed}"))
            write_tree(os.fsencode(path), folder.tree)

    def miss(self, label, judge, past, kind):
        """Whether a start is wrong if the syncs of one kind were not made."""
        other = without(past, kind)
        if other is None:
            return
        self.found.made.add(kind)
        if kind in self.found.missed:
            return
        for number in range(self.way.tries):
            chance = random.Random(f"{label}, {kind}, {number}")
            moment, model = moment_after(chance, other), chance.choice(MODELS)
            folder = left(chance, model, other, events_before(chance, other, moment))
            if judge.judge(chance, folder, moment)[0] is not None:
                self.found.missed.add(kind)
                return
