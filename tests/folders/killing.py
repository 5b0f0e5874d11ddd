"""A host at a socket that is killed, or whose disk is full, at random moments, and that goes on."""
import os
import random
import resource
import signal
import socket
import subprocess
import time

from folders.asking import REPOSITORIES, History, Requests
from folders.sweeps import COUNT, HOST, collected, plain, show_collected, with_sweeps
from lib.folder import Folder
from lib.frames import frames, replies
from lib.live import to_end
from lib.objects import whole
from lib.program import PATIENCE, done, ended, sound

TENANTS = [b"alice", b"bob", b"carol", b"dave"]
GRANTS = ["alice=60000", "bob=60000", "carol=4000000", "dave=5000"]
LIVES, KILLS = 10, 10
FULL = 60
CHANGING = (b"init", b"drop", b"fork", b"push", b"part", b"part-drop", b"update-refs", b"set-head", b"prune")
CHANGING += (b"offer", b"withdraw", b"fork-offer")
GREAT = 150_000
ENDS = (b"forkhost: journal not written\n", b"forkhost: state not saved\n")


def changes(payload, reply):
    """Whether a request that is answered so may have changed what its tenant has."""
    verb = payload.split(b"\n", 1)[0].split(b" ", 1)[0]
    return verb == b"part-end" or (verb in CHANGING and reply.startswith(b"ok\n"))


def answered(live, who, payload):
    """The reply to a request, and whether it changed what its tenant has. Of a prune the use tells."""
    used = live.asked(who, b"quota\n")
    reply = live.asked(who, payload)
    is_same = payload == b"prune\n" and live.asked(who, b"quota\n") == used
    return reply, changes(payload, reply) and not is_same


def looks(history):
    """Requests that show all that the tenants have, and that change nothing."""
    asks = [b"%s %s\n" % (word, place) for word in (b"for-each-ref", b"head") for place in REPOSITORIES]
    asks += (b"quota\n", b"repos\n", b"offers\n")
    asks += (b"push %s\n\n" % place for place in REPOSITORIES)
    asks += (b"cat-file %s\n" % name for name in history.names)
    return [(who, payload) for who in TENANTS for payload in asks] + [(HOST, b"tenants\n")]


def limited(most):
    """For a child: no file grows longer, and it gets an error for that."""

    def limit():
        signal.signal(signal.SIGXFSZ, signal.SIG_IGN)
        resource.setrlimit(resource.RLIMIT_FSIZE, (most, most))

    return limit


class Host:
    """A process of `serve` over a folder, at a socket."""

    def __init__(self, program, folder, path, *words, prepare=None):
        self.path = path
        if os.path.lexists(path):
            os.remove(path)
        given = program.given("serve", "--socket", path, "--connections", "1000000", "--dir", folder, *words)
        pipe = subprocess.PIPE
        self.child = subprocess.Popen(
            given, stdin=pipe, stdout=pipe, stderr=pipe, preexec_fn=prepare, restore_signals=prepare is None
        )
        program.running.append(self.child)

    def is_there(self):
        """Waits until it listens, and says whether it does."""
        end = time.monotonic() + PATIENCE
        while time.monotonic() < end and self.child.poll() is None:
            if os.path.lexists(self.path):
                return True
            time.sleep(0.001)
        return False

    def client(self):
        stream = socket.socket(socket.AF_UNIX)
        stream.settimeout(PATIENCE)
        stream.connect(self.path)
        return stream

    def kill(self):
        self.child.kill()
        return ended(self.child)


def tell(stream, turns):
    """Sends all, as far as the other side takes it."""
    try:
        stream.sendall(frames(turns))
    except OSError:
        pass


def told(stream):
    """The whole replies up to the end."""
    return replies(to_end(stream))[0]


class Told:
    """What one host was asked and answered, since it was made. Where a reply did not come, it is as if the request had
    been answered, or as if it had not come; so there may be several histories, of which one is right."""

    def __init__(self, checks, program, history):
        self.checks, self.program, self.history = checks, program, history
        self.pasts = [([], [])]

    def session(self, turns):
        """What one session in memory answers to all of this."""
        ran = self.program.ran("run", *GRANTS, given=frames(turns))
        return plain(turns, replies(ran.output)[0])

    def went(self, label, turns, answers):
        """These were asked, and these replies came: all but perhaps some at the end."""
        answers = plain(turns, answers)
        known = [(turn, reply) for turn, reply in zip(turns, answers) if not reply.startswith(b"host ")]
        self.pasts = [(past + [turn for turn, _ in known], heard + [r for _, r in known]) for past, heard in self.pasts]
        if len(answers) < len(turns):
            self.pasts += [(past + [turns[len(answers)]], heard + [None]) for past, heard in self.pasts]
        right = [past for past in self.pasts if self.agrees(*past)]
        self.checks.same(f"{label}: the replies are those of one session", True, bool(right))
        self.pasts = right or self.pasts

    def agrees(self, turns, heard):
        answers = self.session(turns)
        return len(answers) == len(heard) and all(one in (None, other) for one, other in zip(heard, answers))

    def shows(self, label, answers):
        """What the host shows is what one of the histories leads to; only such ones are kept."""
        asks = looks(self.history)
        right = []
        for turns, heard in self.pasts:
            all_told = self.session(turns + asks)
            if all_told[len(turns) :] == answers:
                right.append((turns, heard, all_told))
        self.checks.same(f"{label}: what the host shows", True, bool(right))
        kept = {}
        for turns, heard, all_told in right:
            quiet = heard and heard[-1] is None and not changes(turns[-1][1], all_told[len(turns) - 1])
            past = (turns[:-1], heard[:-1]) if quiet else (turns, heard)
            kept[frames(past[0])] = past
        self.pasts = list(kept.values()) or self.pasts


class Life:
    """One host from its first start on, which is killed and started again."""

    def __init__(self, checks, program, work, seed):
        self.checks, self.program, self.seed = checks, program, seed
        self.chance = random.Random(seed)
        self.history = History(self.chance, 10)
        if seed % 2:
            for number in range(4):
                self.history.add(b"blob", self.chance.randbytes(GREAT))
            self.history.names = sorted(self.history.objects)
        self.requests = Requests(self.chance, self.history, TENANTS)
        self.folder = Folder(os.path.join(work, f"life{seed}"))
        self.path = os.path.join(work, "socket")
        self.told = Told(checks, program, self.history)

    def started(self, *words, prepare=None):
        return Host(self.program, self.folder.path, self.path, *words, prepare=prepare)

    def turns(self, count):
        """This many random requests, of four tenants; now and then a push of a great object, in parts or at once; and
        sweeps between."""
        asked = [(who, b"init %s\n" % self.chance.choice(REPOSITORIES)) for who in TENANTS]
        while len(asked) < count:
            who = self.chance.choice(TENANTS)
            asked += ((who, payload) for payload in self.requests.payloads(who))
            if self.seed % 2 and self.chance.random() < 0.3:
                asked += ((b"carol", payload) for payload in self.great())
        return list(with_sweeps(self.chance, asked))

    def great(self):
        blobs = [name for name in self.history.names if len(self.history.objects[name][1]) == GREAT]
        body = self.history.body([], [self.chance.choice(blobs)])
        cut = self.chance.randrange(len(body))
        split = [b"part\n" + body[:cut], b"part\n" + body[cut:], b"part-end q\n", b"prune\n"]
        return self.chance.choice([split, split[:2], [b"push q\n" + body], [b"push q\n" + body, b"prune\n"]])

    def legs(self):
        """The requests of one or more connections."""
        return [self.turns(self.chance.randint(1, 30)) for _ in range(self.chance.randint(1, 3))]

    def one_by_one(self, host, turns, last):
        """Asks one after another; the host is killed while it answers the last. What came of it."""
        came = []
        with host.client() as stream:
            for at, turn in enumerate(turns):
                tell(stream, [turn])
                if at == last:
                    time.sleep(self.chance.choice([0, 0, 0.0001, 0.0003, 0.001]))
                    host.child.kill()
                    return came + told(stream)
                came.append(one_told(stream))
            stream.shutdown(socket.SHUT_WR)
            return came + told(stream)

    def at_once(self, host, turns, wait):
        """Asks all at once, and if there is a time, the host is killed after it. What came of it."""
        with host.client() as stream:
            tell(stream, turns)
            if wait is not None:
                time.sleep(wait)
                host.child.kill()
            else:
                stream.shutdown(socket.SHUT_WR)
            return told(stream)

    def killed(self, label, host):
        """The host serves some connections, and is killed in the last of them, or at its end."""
        legs = self.legs()
        for leg in legs[:-1]:
            self.told.went(label, leg, self.at_once(host, leg, None))
        leg, way = legs[-1], self.chance.choice(["one by one", "at once", "at once", "at its end"])
        if way == "one by one":
            last = self.chance.randrange(len(leg))
            came, asked = self.one_by_one(host, leg, last), leg[: last + 1]
        elif way == "at once":
            came, asked = self.at_once(host, leg, self.chance.uniform(0, 0.0006) * len(leg)), leg
        else:
            came, asked = self.at_once(host, leg, None), leg
            time.sleep(self.chance.uniform(0, 0.02))
        host.kill()
        self.told.went(label, asked, came)

    def looked(self, label, host):
        """What the host shows is right, and so are its files."""
        answers = self.at_once(host, looks(self.history), None)
        self.told.shows(label, answers)
        torn = [name for name, file in self.folder.files().items() if not whole(name, file)]
        self.checks.same(f"{label}: files that are torn", [], torn)

    def drop_uploads(self, label, host):
        """No upload is open, so that what is held is what is seen."""
        drops = [(who, b"part-drop\n") for who in TENANTS]
        self.told.went(label, drops, self.at_once(host, drops, None))

    def sweep_and_kill(self, label, host):
        """What a round removes, and a kill before the connection's end restores, the next round removes again."""
        with host.client() as stream:
            tell(stream, [(HOST, b"collect\n")])
            counted = one_told(stream)
            host.kill()
        self.checks.same(f"{label}: a round counts, {counted!r}", True, COUNT.fullmatch(counted) is not None)
        self.checks.same(f"{label}: the next one", (counted, done()), collected(self.program, self.folder))

    def sweep_to_the_end(self, label, host):
        """What a round removes is gone at the connection's end, and does not come back."""
        self.told.went(label, [(HOST, b"collect\n")], self.at_once(host, [(HOST, b"collect\n")], None))
        self.at_once(host, [(HOST, b"census\n")], None)
        self.checks.same(f"{label}: what was swept is let go", [], self.folder.swept())
        host.kill()
        self.checks.same(f"{label}: nothing is left to it", (b"ok\n0\n", done()), collected(self.program, self.folder))

    def start_again(self, label):
        """A start, which is killed too now and then."""
        while self.chance.random() < 0.3:
            host = self.started()
            time.sleep(self.chance.uniform(0, 0.03))
            host.kill()
        self.checks.same(f"{label}: check", sound(self.folder.again()), self.program.checked(self.folder.path))
        self.checks.same(f"{label}: what was being written", [], self.folder.parts())
        host = self.started()
        self.checks.same(f"{label}: it starts", True, host.is_there())
        return host


def one_told(stream):
    """One whole reply."""
    line = b""
    while not line.endswith(b"\n"):
        line += stream.recv(1)
    reply = b""
    while len(reply) < int(line):
        reply += stream.recv(int(line) - len(reply))
    return reply


def show_killed(checks, program, work):
    for seed in range(LIVES):
        life = Life(checks, program, work, seed)
        host = life.started(*GRANTS)
        host.is_there()
        # A host that has answered has saved its tenants; one that takes a connection may not have.
        life.at_once(host, [(HOST, b"census\n")], None)
        for number in range(KILLS):
            label = f"life {seed}, kill {number}"
            life.killed(label, host)
            host = life.start_again(label)
            life.looked(label, host)
        life.drop_uploads(f"life {seed}, its uploads", host)
        end = life.sweep_to_the_end if seed % 2 else life.sweep_and_kill
        end(f"life {seed}, its end", host)
        show_collected(checks, program, life.folder, f"life {seed}")


def show_full(checks, program, work):
    """Files may only grow so long: what is answered is right, the fault is named, and after it nothing is half."""
    for seed in range(100, 100 + FULL):
        life, label = Life(checks, program, work, seed), f"full disk {seed}"
        host = life.started(*GRANTS)
        host.is_there()
        leg = life.turns(20)
        life.told.went(label, leg, life.at_once(host, leg, None))
        host.kill()
        host = life.started(prepare=limited(life.chance.choice([200, 1000, 3000, 10000, 30000, 200_000])))
        if host.is_there():
            for leg in life.legs():
                try:
                    came = life.at_once(host, leg, None)
                except OSError:
                    break
                life.told.went(label, leg, came)
        gone = host.child.poll() is not None or wait_briefly(host.child)
        ran = ended(host.child) if gone else host.kill()
        wanted = [(1, end) for end in ENDS] if gone else [(-signal.SIGKILL, b"")]
        checks.same(f"{label}: its end is named", True, (ran.status, ran.fault) in wanted)
        host = life.start_again(label)
        life.looked(label, host)
        host.kill()


def wait_briefly(child):
    """A process that ends by itself ends soon."""
    try:
        child.wait(0.05)
    except subprocess.TimeoutExpired:
        return False
    return True
