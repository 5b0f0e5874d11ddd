"""A tenant that goes from one host's folder to another's: what it and all others see then, what is refused, and moves that are killed."""
import fcntl
import os
import shutil
import subprocess

from folders.cases import D, OBJECTS
from forkhost_shards.segments import Segments
from lib.folder import Folder, content, write
from lib.frames import frames, replies
from lib.live import Live
from lib.objects import name_of, record, stored
from lib.packed import NO_NAME, Record, long_record_of, record_of, spelled
from lib.pages import block, commands, printed
from lib.places import CLIENTS
from lib.program import PATIENCE, Ran, done, sound

ALICE, BOB, CAROL, HOST = b"alice", b"bob", b"carol", b"@host"
GRANTS = {"source": ["alice=1000000", "bob=1000000"], "target": ["carol=1000000"]}
LAYOUTS = [(source, target) for source in ("loose", "packed") for target in ("loose", "packed")]
OWN, STAGED, LONG = b"alice's own", b"what no reference reaches", b"long\n" * 30_000
RECORDS = b"".join(record(*thing) for thing in OBJECTS.values())
PUSH = b"push r\ncreate refs/heads/main %s\n\n" % D + RECORDS
NAMES = [*OBJECTS, *(name_of(b"blob", text) for text in (OWN, STAGED, LONG))]
OF_ALICE = [
    b"init r\n",
    b"init empty\n",
    PUSH,
    b"fork r s\n",
    b"set-head s refs/heads/later\n",
    b"push s\ncreate refs/tags/own %s\ncreate refs/tags/long %s\n\n" % (NAMES[-3], NAMES[-1]) + record(b"blob", OWN) + record(b"blob", LONG),
    b"push s\n\n" + record(b"blob", STAGED),
    b"offer s bob\n",
    b"offer r zoe\n",
]
OTHERS = [(BOB, b"init r\n"), (BOB, PUSH), (BOB, b"init mine\n"), (BOB, b"offer mine alice\n")]
LOOKS = [b"repos\n", b"quota\n", b"for-each-ref r\n", b"for-each-ref s\n", b"head s\n", b"fetch r refs/heads/main\n"]
LOOKS += [b"cat-file %s\n" % name for name in NAMES]
OFFERS = [b"to bob s\n", b"to zoe r\n"]
# What a move does to its folders, each of which may be the last; of those that are many over loose files, one of so many.
CALLS = {"rename": 1, "flock": 1, "mkdir": 4, "unlink": 4, "unlinkat": 4, "rmdir": 4, "fsync": 4}


class Pair:
    """Two folders whose hosts are stopped: alice and bob in the source, who share objects, and carol in the target, who has some too."""

    def __init__(self, checks, program, work, source="loose", target="loose"):
        self.checks, self.program, self.work = checks, program, work
        os.makedirs(work)
        self.tools = os.path.join(work, "tools")
        os.mkdir(self.tools)
        os.symlink(program.path, os.path.join(self.tools, "forkhost"))
        self.source, self.target = (Folder(os.path.join(work, name)) for name in GRANTS)
        self.fill(source, self.source, [*((ALICE, asked) for asked in OF_ALICE), *OTHERS])
        self.fill(target, self.target, [(CAROL, b"init r\n"), (CAROL, PUSH)])

    def fill(self, layout, folder, turns):
        grants = GRANTS[os.path.basename(folder.path)]
        words = ["--dir", folder.path, *(["--packed"] if layout == "packed" else []), *grants]
        told, rest = replies(self.program.ran("run", *words, given=frames(turns)).output)
        self.checks.same(f"{layout}: all is done", [b"ok\n"] * len(turns), [reply[:3] for reply in told])

    def environment(self):
        return {**os.environ, "PATH": os.pathsep.join([self.tools, CLIENTS, os.environ["PATH"]]), "PYTHONDONTWRITEBYTECODE": "1"}

    def moves(self, *words, how=()):
        """How a move ends; by default that of alice."""
        words = [*how, "forkhost-move", *(words or ("alice", self.source.path, self.target.path))]
        ran = subprocess.run(words, env=self.environment(), capture_output=True, timeout=PATIENCE)
        return Ran(ran.returncode, ran.stdout, ran.stderr)

    def told(self, folder, who, asks):
        """The replies of a session, which ends in order."""
        return replies(self.program.ran("run", "--dir", folder.path, given=frames((who, ask) for ask in asks)).output)[0]

    def shown(self):
        """What each tenant sees where it is."""
        at = self.target if self.is_at(self.target) else self.source
        return {who: self.told(folder, who, LOOKS) for who, folder in ((ALICE, at), (BOB, self.source), (CAROL, self.target))}

    def is_at(self, folder):
        return b"\ntenant alice " in folder.state()

    def are_sound(self, label):
        for folder in (self.source, self.target):
            self.checks.same(f"{label}: {os.path.basename(folder.path)}", sound(), self.program.checked(folder.path))

    def copied(self, name):
        """The same two folders elsewhere."""
        other = object.__new__(Pair)
        other.checks, other.program, other.tools = self.checks, self.program, self.tools
        other.work = os.path.join(self.work, name)
        for side in GRANTS:
            shutil.copytree(os.path.join(self.work, side), os.path.join(other.work, side))
        other.source, other.target = (Folder(os.path.join(other.work, side)) for side in GRANTS)
        return other


def show_moves(checks, program, work):
    """Over both layouts at both sides: alice sees at the target what she saw, and the others see what they saw."""
    for layouts in LAYOUTS:
        label = " to ".join(layouts)
        pair = Pair(checks, program, os.path.join(work, "-".join(layouts)), *layouts)
        before = pair.shown()
        checks.same(f"{label}: bob is offered something", b"ok\nfrom alice s\nto alice mine\n", pair.told(pair.source, BOB, [b"offers\n"])[0])
        checks.same(f"{label}: a move", done(), pair.moves())
        checks.same(f"{label}: where she is", (False, True), (pair.is_at(pair.source), pair.is_at(pair.target)))
        pair.are_sound(label)
        checks.same(f"{label}: all see what they saw", before, pair.shown())
        checks.same(f"{label}: her offers", b"ok\n" + b"".join(OFFERS), pair.told(pair.target, ALICE, [b"offers\n"])[0])
        checks.same(f"{label}: her offer is gone for bob", b"ok\nto alice mine\n", pair.told(pair.source, BOB, [b"offers\n"])[0])
        checks.same(f"{label}: nothing is beside", False, os.path.lexists(pair.target.inside("moving")))
        left = pair.told(pair.source, HOST, [b"collect\n", b"census\n"])
        checks.same(f"{label}: what she leaves is swept", [b"ok\n3\n", b"ok\n%d\n" % len(OBJECTS)], left)
        checks.same(f"{label}: each object is there once", len(NAMES), len(pair.target.files()))
        checks.same(f"{label}: and back", done(), pair.moves("alice", pair.target.path, pair.source.path))
        pair.are_sound(f"{label} and back")
        checks.same(f"{label}: all see it again", before, pair.shown())
        checks.same(f"{label}: bob's offer is there again", True, b"from bob mine\n" in pair.told(pair.source, ALICE, [b"offers\n"])[0])


def show_removals(checks, program, work):
    """In a packed source objects were swept before a kill, are back by a start that says so in a record, and are seen again."""
    pair = Pair(checks, program, os.path.join(work, "later"), "packed", "packed")
    live = Live(program, "--dir", pair.source.path)
    does = lambda *turns: checks.same(f"{turns}", [b"ok\n"] * len(turns), [live.asked(*turn)[:3] for turn in turns])
    does((ALICE, b"drop s\n"), (ALICE, b"withdraw s bob\n"), (ALICE, b"prune\n"), (HOST, b"collect\n"))
    live.child.kill()
    live.child.communicate()
    live = Live(program, "--dir", pair.source.path)
    does((ALICE, b"init s\n"), (ALICE, OF_ALICE[5]), (ALICE, b"push s\n\n" + record(b"blob", b"x")), (ALICE, b"prune\n"), (HOST, b"collect\n"))
    checks.same("the end", done(), live.ended())
    raw = b"".join(content(path) for path in pair.source.segments().paths())
    checks.same("a record says so, and none is there anew", (1, 1), (raw.count(b"u" + bytes(36)), raw.count(stored(b"blob", OWN))))
    before = pair.shown()
    checks.same("a move", done(), pair.moves())
    pair.are_sound("after removals")
    checks.same("all see what they saw", before, pair.shown())


def show_segments(checks, _program, work):
    """What is found in segments with records that are damaged, cut or of no form, as a start finds it."""
    names = [name_of(b"blob", text) for text in (OWN, STAGED, LONG)]
    forms = (record_of, long_record_of, record_of)
    own, staged, long = (spelled(form(bytes.fromhex(name.decode()), stored(b"blob", text))) for form, name, text in zip(forms, names, (OWN, STAGED, LONG)))
    removed = spelled(Record(b"r", bytes.fromhex(names[0].decode()), b""))
    final = spelled(Record(b"s", NO_NAME, b""))
    damaged = staged[:-1] + b"x"
    rows = {
        "all": ([own + staged, long], [True] * 3),
        "a removal": ([own + removed], [True, False, False]),
        "a removal that is final": ([own + removed + final + staged], [False, True, False]),
        "a damaged record": ([own + damaged + long], [True, False, True]),
        "a removal after a damaged record": ([own + damaged + removed + final], [True, False, False]),
        "a removal in the next segment": ([own + damaged, removed + final], [False, False, False]),
        "a cut record": ([own + staged[:-1]], [True, False, False]),
        "no record": ([own + b"x" * 100 + staged, long], [True, False, True]),
        "an empty segment": ([b"", long], [False, False, True]),
    }
    for label, (segments, wanted) in rows.items():
        home = os.path.join(work, label)
        os.makedirs(os.path.join(home, "segments"))
        for at, data in enumerate(segments, 2):
            write(os.path.join(home, "segments", f"{at:08}"), data)
        store = Segments(home)
        store.load([name.decode() for name in names])
        checks.same(f"segments: {label}", wanted, [store.has(name.decode()) for name in names])
        found = [store.read(name.decode()) for name, is_there in zip(names, wanted) if is_there]
        texts = [stored(b"blob", text) for text, is_there in zip((OWN, STAGED, LONG), wanted) if is_there]
        checks.same(f"segments: {label}: the files", texts, found)


def show_page(checks, program, work):
    """The commands of docs/SCALING.md, over other folders."""
    pair = Pair(checks, program, os.path.join(work, "page"))
    shown = block("docs/SCALING.md", "Move a tenant", "forkhost-move")
    script = commands(shown).replace("/srv/forkhost/one", pair.source.path).replace("/srv/forkhost/two", pair.target.path)
    ran = subprocess.run(["bash", "-ec", script], env=pair.environment(), capture_output=True, timeout=PATIENCE)
    checks.same("what is printed", done(printed(shown).encode()), Ran(ran.returncode, ran.stdout, ran.stderr))
    checks.same("where she is", (False, True), (pair.is_at(pair.source), pair.is_at(pair.target)))


def refused(pair, label, said, *words):
    """A move that is refused says why, and leaves both states as they were."""
    before = pair.source.state(), pair.target.state()
    ran = pair.moves(*words)
    pair.checks.same(f"{label}: it is refused", (2, b"", True), (ran.status, ran.output, said.encode() in ran.fault))
    pair.checks.same(f"{label}: the states", before, (pair.source.state(), pair.target.state()))
    pair.checks.same(f"{label}: nothing is beside", False, os.path.lexists(pair.target.inside("moving")))


def show_refused(checks, program, work):
    """What is not as it should be is told before anything is changed."""
    pair = Pair(checks, program, os.path.join(work, "first"))
    source, target = pair.source, pair.target
    for words in ([], ["alice"], ["ALICE", source.path, target.path], ["@host", source.path, target.path]):
        ran = pair.moves(*words) if words else pair.moves("")
        checks.same(f"words: {words}", (2, True), (ran.status, b"usage: forkhost-move" in ran.fault))
    checks.same("help", 0, pair.moves("--help").status)
    refused(pair, "nobody", "has no tenant 'dora'", "dora", source.path, target.path)
    refused(pair, "one folder", "are one folder", "alice", source.path, source.path + "/")
    refused(pair, "no folder", "no state", "alice", source.path, target.path + "x")
    show_busy(pair)
    show_unsound(pair)
    show_names(pair)
    checks.same("after all of it, a move", done(), pair.moves())
    pair.are_sound("after all of it")


def show_busy(pair):
    """A host that runs, one that was killed, and an open upload."""
    live = Live(pair.program, "--dir", pair.target.path)
    pair.checks.same("it answers", b"ok\n", live.asked(CAROL, b"init busy\n"))
    refused(pair, "a host runs", "is not sound: forkhost: store")
    live.child.kill()
    live.child.communicate()
    refused(pair, "a journal", "has requests; 'forkhost run --dir")
    pair.checks.same("it is saved", done(), pair.program.ran("run", "--dir", pair.target.path))
    live = Live(pair.program, "--dir", pair.source.path)
    pair.checks.same("an upload", b"ok\n", live.asked(BOB, b"part\n"))
    live.child.kill()
    live.child.communicate()
    pair.checks.same("an upgrade keeps it", b"state 2\n", pair.program.ran("upgrade", "--dir", pair.source.path).output)
    refused(pair, "an open upload", "has requests; 'forkhost run --dir")
    pair.checks.same("it is ended", done(), pair.program.ran("run", "--dir", pair.source.path))


def show_unsound(pair):
    """An object that is gone or damaged on either side, and a wrong state."""
    for side, name in ((pair.source, NAMES[-1]), (pair.target, D)):
        path = side.file_of(name)
        for label, data in (("gone", None), ("damaged", b"x")):
            before = content(path)
            os.remove(path) if data is None else write(path, data)
            refused(pair, f"{label} in {os.path.basename(side.path)}", "is not sound: forkhost: " + ("lost" if data is None else "damaged"))
            write(path, before)
    text = pair.target.state()
    pair.target.set_state(text.replace(b"end\n", b""))
    refused(pair, "a wrong state", "is not sound: forkhost: state line")
    pair.target.set_state(text)


def show_names(pair):
    """Another tenant of this name, and no room for one more."""
    add = lambda *grants: pair.program.ran("run", "--dir", pair.target.path, *grants)
    remove = lambda name: pair.program.ran("remove-tenant", "--dir", pair.target.path, name)
    pair.checks.same("another alice", done(), add("alice=5"))
    refused(pair, "another alice", "has another tenant 'alice'")
    pair.checks.same("she goes", done(), remove("alice"))
    others = [f"t{at}" for at in range(63)]
    pair.checks.same("as many as can be", done(), add(*(f"{name}=5" for name in others)))
    refused(pair, "no room", "has 64 tenants")
    pair.checks.same("one goes", done(), remove(others[0]))


# In the place of the program: its run of this number finds what is not there.
FINDS = """#!/bin/sh
number=$(($(cat {count}) + 1))
echo $number > {count}
[ $number != {at} ] || {{ echo "forkhost: lost x" >&2; exit 1; }}
exec {program} "$@"
"""
# What is judged, in order.
JUDGED = ("source", "target", "target/moving", "target", "source")


def show_judged(checks, program, work):
    """A folder is not sound at one of the times at which it is judged. Up to the last one, the states are as they were."""
    for layouts in (("loose", "packed"), ("packed", "loose")):
        for at, place in enumerate(JUDGED, 1):
            label = f"{' to '.join(layouts)}: judgement {at}"
            pair = Pair(checks, program, os.path.join(work, f"{layouts[0]}{at}"), *layouts)
            path, count = os.path.join(pair.tools, "forkhost"), os.path.join(pair.tools, "count").encode()
            os.remove(path)
            write(count, b"0")
            write(path, FINDS.format(count=count.decode(), at=at, program=program.path).encode())
            os.chmod(path, 0o700)
            said = f"{os.path.join(pair.work, place)}' is not sound: forkhost: lost x"
            if at < len(JUDGED):
                refused(pair, label, said)
            else:
                checks.same(f"{label}: it is told", True, said.encode() in pair.moves().fault)
            checks.same(f"{label}: so many are judged", at, int(content(count)))
            checks.same(f"{label}: where she is", (at < len(JUDGED), at == len(JUDGED)), (pair.is_at(pair.source), pair.is_at(pair.target)))
            pair.are_sound(label)


def show_leftovers(checks, program, work):
    """Files that nobody sees do not count: one that is damaged is replaced, and a segment that is cut is passed over."""
    pair = Pair(checks, program, os.path.join(work, "loose"))
    os.makedirs(os.path.dirname(pair.target.file_of(NAMES[-1])), exist_ok=True)
    write(pair.target.file_of(NAMES[-1]), b"damaged")
    os.mkdir(pair.target.inside("moving"))
    write(pair.target.inside("moving", "x"), b"of a move that was killed")
    checks.same("over a damaged file", done(), pair.moves())
    pair.are_sound("over a damaged file")
    pair = Pair(checks, program, os.path.join(work, "packed"), "packed", "packed")
    with open(pair.target.segments().paths()[-1], "ab") as file:
        file.write(b"o" + bytes(3))
    checks.same("after a cut segment", done(), pair.moves())
    pair.are_sound("after a cut segment")
    live = Live(program, "--dir", pair.target.path)
    checks.same("a push after it", b"ok\n", live.asked(CAROL, b"push r\n\n" + record(b"blob", b"later")))
    checks.same("the end", done(), live.ended())
    pair.are_sound("after a push")
    with open(pair.source.inside("lock"), "ab") as file:
        fcntl.flock(file, fcntl.LOCK_EX)
        refused(pair, "a lock", "is not sound: forkhost: store", "bob", pair.source.path, pair.target.path)


def show_killed(checks, program, work):
    """A move is killed at the calls that change a folder. Then alice is in the source, or in both alike, and both are sound;
    the same command ends it."""
    if not shutil.which("strace"):
        raise OSError("there is no strace, by which a move is killed")
    for layouts in LAYOUTS:
        label = " to ".join(layouts)
        pair = Pair(checks, program, os.path.join(work, "-".join(layouts)), *layouts)
        before, ends = pair.shown(), set()
        for call, step in CALLS.items():
            ends |= killed_at(pair, label, before, call, step if layouts[1] == "loose" else 1)
        checks.same(f"{label}: where she is then", {(True, False), (True, True)}, ends - {(False, True)})


def killed_at(pair, label, before, call, step):
    """Moves that are killed at one kind of call, the first time, and so on until one is not; where alice is then."""
    at, ends = 1, set()
    while killed(other := pair.copied(f"{call}{at}"), call, at):
        ends.add((other.is_at(other.source), other.is_at(other.target)))
        goes_on(other, f"{label}: killed at {call} {at}", before)
        shutil.rmtree(other.work)
        at += step
    pair.checks.same(f"{label}: a move that is not killed at {call}", True, other.is_at(other.target))
    shutil.rmtree(other.work)
    return ends


def killed(pair, call, at):
    """Whether a move is killed at a call. A count of strace is of one kind of call."""
    how = ["strace", "-qq", "-o", os.devnull, "-e", f"trace={call}", "-e", f"inject={call}:signal=SIGKILL:when={at}"]
    return pair.moves(how=how).status != 0


def goes_on(pair, label, before):
    pair.are_sound(label)
    places = pair.is_at(pair.source), pair.is_at(pair.target)
    pair.checks.same(f"{label}: she is somewhere", True, any(places))
    if all(places):
        pair.checks.same(f"{label}: alike", lines_of(pair.source), lines_of(pair.target))
    if places[0]:
        pair.checks.same(f"{label}: it goes on", done(), pair.moves())
        pair.are_sound(f"{label}, and went on")
    pair.checks.same(f"{label}: where she is", (False, True), (pair.is_at(pair.source), pair.is_at(pair.target)))
    pair.checks.same(f"{label}: all see what they saw", before, pair.shown())


def lines_of(folder):
    """The lines of alice."""
    return folder.state().partition(b"\ntenant alice ")[2].partition(b"\ntenant ")[0].removesuffix(b"\nend\n")
