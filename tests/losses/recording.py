"""A host over a folder that serves random requests under strace, and is killed or ended, and begun again."""
import contextlib
import os
import shutil
import subprocess
import threading
import time

from folders.killing import HOST, TENANTS, Life, tell
from lib.checks import Checks
from lib.frames import frames
from lib.live import Serving, to_end
from lib.objects import record
from losses.calls import Traced
from losses.past import Past

GRANTS = ["alice=60000", "bob=60000", "carol=4000000", "dave=5000"]
DROPS = [(who, b"part-drop\n") for who in TENANTS]
PLACE = b"host"
AT_ONCE = ["--at-once", "8"]
# How many of all processes are killed.
KILLED = 0.6
# Who pushes an object again and again, and how it goes between.
WHO = b"dave"
AWAY = [(WHO, b"prune\n"), (HOST, b"collect\n")]
# An upload that is longer than 1 MiB, and a part more.
WIDE = record(b"blob", bytes(range(256)) * 4300)
UPLOAD = [(b"carol", b"part-drop\n"), (b"carol", b"part\n\n" + WIDE[:600_000]), (b"carol", b"part\n" + WIDE[600_000:]), (b"carol", b"part\n" + WIDE[:300])]


def read_tree(path):
    """What is in a folder."""
    if os.path.isdir(path):
        return {name: read_tree(os.path.join(path, name)) for name in os.listdir(path)}
    with open(path, "rb") as file:
        return file.read()


def write_tree(path, tree):
    """Makes a folder as the host makes one: nobody but its owner reads it."""
    if isinstance(tree, dict):
        os.mkdir(path, 0o700)
        for name, inner in tree.items():
            write_tree(os.path.join(path, name), inner)
        return
    with open(os.open(path, os.O_WRONLY | os.O_CREAT, 0o600), "wb") as file:
        file.write(tree)


def takes(program, command, words):
    """Whether a command has these options."""
    usage = program.ran(command, "--help").output
    return all(word.encode() in usage for word in words)


class Leg:
    """One process: what each connection was asked, the first and the last event, and whether it ended in order."""

    def __init__(self, begin):
        self.asked, self.begin, self.end, self.is_ended = [], begin, begin, False

    def ended(self, child):
        child.communicate()
        self.is_ended = child.returncode == 0


class Recording:
    """Some processes over one folder, one after another, and its past."""

    def __init__(self, program, work, chance, tree, way):
        self.program, self.chance, self.sync, self.repacks = Traced(program, work), chance, way.sync, way.repacks
        self.uploads = way.uploads
        self.is_run = takes(program, "run", self.sync)
        # Sockets have short paths.
        self.path, self.socket = os.path.join(work, "disk"), os.path.join(work, "s")
        write_tree(os.fsencode(self.path), tree)
        self.past, self.legs = Past(self.path, read_tree(os.fsencode(self.path))), []
        life = Life(Checks(), program, work, chance.randrange(1000))
        shutil.rmtree(life.folder.path)
        self.life, self.history = life, life.history
        again = self.history.add(b"blob", b"again and again")
        self.pushed = [(WHO, b"init q\n"), (WHO, b"push q\n" + self.history.body([], [again]))]

    def words(self, *more):
        return ["--dir", os.path.join(self.path, os.fsdecode(PLACE)), *more]

    def serve(self, grants):
        """One process after another: the first one adds these tenants."""
        for _ in range(self.chance.randint(2, 4)):
            leg = Leg(len(self.past.events))
            self.legs.append(leg)
            self.chance.choice(self.ways(grants))(leg, self.words(*grants))
            self.note(leg)
            grants = []

    def ways(self, grants):
        """What a process may do. One that adds tenants serves at a socket, where it has saved them before it can be killed."""
        serving = [self.one_after_another, self.at_once] * 2
        if grants:
            return serving
        return [*serving, self.by_upgrade, self.by_start, *([self.by_run] if self.is_run else []), *([self.by_repack] * 4 if self.repacks else [])]

    def turns(self, least):
        """Random requests, and sometimes an object among them that is pruned, swept and pushed again, once or twice."""
        asked = self.life.turns(self.chance.randint(least, 40))
        if self.chance.random() < 0.5:
            at = self.chance.randint(0, len(asked))
            asked[at:at] = self.pushed + (AWAY + self.pushed) * self.chance.randint(1, 2)
        if self.uploads:
            # A sweep at its end, after which the state is saved.
            asked[len(asked) // 2 :] = self.chance.choice([UPLOAD, UPLOAD[-1:]]) + self.pushed + AWAY
        return asked

    def first(self, leg):
        """What a process is asked first: no upload goes on after a loss of power, so that what is shown tells what was done."""
        return DROPS if leg is self.legs[0] else []

    def by_run(self, leg, words):
        """A session, which may be killed. Then its input does not end: of one that is killed while it ends nobody can tell whether
        its open uploads went."""
        leg.asked = [self.first(leg) + self.turns(5)]
        child = self.program.begun("run", *words, *self.sync)
        given = frames(leg.asked[0])
        if self.chance.random() < KILLED:
            self.killed(child, given, self.chance.uniform(0, 0.002) * len(leg.asked[0]))
        else:
            child.communicate(given)
        leg.ended(child)

    def killed(self, child, given, wait):
        """Gives a process its input, and kills it after so many seconds."""
        stream, child.stdin = child.stdin, None
        giving = threading.Thread(target=give, args=[stream, given])
        giving.start()
        try:
            child.communicate(timeout=wait)
        except subprocess.TimeoutExpired:
            child.kill()
        giving.join()
        with contextlib.suppress(OSError):
            stream.close()

    def by_start(self, _leg, words):
        """A process that is killed while it saves what the folder keeps: before the journal gets its name, or before the state
        gets the place that this journal goes on from."""
        self.program.begun("upgrade", *words, renames=self.chance.randint(1, 2)).communicate()

    def by_upgrade(self, _leg, words):
        """A process that saves what the folder keeps, with its open uploads, and serves nothing."""
        self.program.begun("upgrade", *words).communicate()

    def by_repack(self, _leg, words):
        """A process that gives the folder one layout or the other, and serves nothing. It may be killed."""
        child = self.program.begun("repack", *self.chance.choice([[], ["--packed"]]), *words)
        if self.chance.random() < KILLED:
            time.sleep(self.chance.uniform(0, 0.05))
            child.kill()
        child.communicate()

    def one_after_another(self, leg, words):
        """Some connections, one after another, of which each asks for all tenants. A process that is killed waits for one more."""
        leg.asked, is_killed = [self.first(leg) + self.turns(1) for _ in range(self.chance.randint(1, 4))], self.chance.random() < KILLED
        serving = Serving(self.program, self.socket, len(leg.asked) + is_killed, *words, *self.sync)
        for asked in leg.asked[:-1]:
            self.talk(serving, [asked], False)
        self.talk(serving, leg.asked[-1:], is_killed)
        leg.ended(serving.child)

    def at_once(self, leg, words):
        """A connection for each tenant, and one of the host's own, all at once."""
        asked, is_killed = self.first(leg) + self.turns(20), self.chance.random() < KILLED
        leg.asked = [[turn for turn in asked if turn[0] == who] for who in (*TENANTS, HOST)]
        serving = Serving(self.program, self.socket, len(leg.asked) + is_killed, *AT_ONCE, *words, *self.sync)
        self.talk(serving, leg.asked, is_killed)
        leg.ended(serving.child)

    def talk(self, serving, parts, is_killed):
        """Connections at once, each of which asks its part; the process may be killed meanwhile."""
        streams = [serving.client() for _ in parts]
        talks = [threading.Thread(target=talk, args=talking) for talking in zip(streams, parts)]
        for thread in talks:
            thread.start()
        if is_killed:
            time.sleep(self.chance.uniform(0, 0.001) * sum(map(len, parts)))
            serving.child.kill()
        for thread in talks:
            thread.join()

    def note(self, leg):
        """Notes what the process did, which is what is in the folder."""
        self.past.began()
        for call in self.program.calls():
            self.past.take(call)
        self.past.settle(read_tree(os.fsencode(self.path)))
        leg.end = len(self.past.events)


def give(stream, given):
    """Writes all to a process that may be killed meanwhile."""
    with contextlib.suppress(OSError):
        stream.write(given)
        stream.flush()


def talk(stream, turns):
    """Asks all at once, and reads what is answered."""
    with stream:
        answers = threading.Thread(target=to_end, args=[stream])
        answers.start()
        tell(stream, turns)
        try:
            stream.shutdown(1)
        except OSError:
            pass
        answers.join()
