"""A copy of a folder that is taken while a host serves it, by the commands of docs/OPERATING.md, chapter "Backup".

In the place of `cp` is a script that says what it is about to copy, and what it has copied, and waits. Meanwhile the host is asked what changes the folder: pushes, sweeps, and connections that end with a saving. The
copy has to be the host as it was when its journal was copied. The same commands in another order, or without the look at the
state, make a copy that is refused or lacks something."""
import os
import random
import select
import socket
import subprocess

from folders.asking import History, Requests, looks
from folders.sweeps import HOST, host_turn
from lib.folder import Folder
from lib.frames import frame, frames, replies
from lib.live import Serving
from lib.objects import record
from lib.pages import block, commands
from lib.program import done
from lib.waiting import PATIENCE

TENANTS = ["alice=400000", "bob=400000"]
INITS = [(b"alice", b"init q\n"), (b"alice", b"init r\n"), (b"bob", b"init r\n")]
DROPS = [(b"alice", b"part-drop\n"), (b"bob", b"part-drop\n")]
SEEDS = 8
# How often a copy is disturbed by savings before it is let be.
DISTURBED = 2
CP = """#!/usr/bin/env python3
import os, socket, subprocess, sys
def step(name):
    name = before + name
    with socket.socket(socket.AF_UNIX) as stream:
        stream.connect({path!r})
        stream.sendall(name.encode())
        stream.shutdown(socket.SHUT_WR)
        stream.recv(1)
def copy(source, place):
    return subprocess.run([{cp!r}, sys.argv[1], source, place], stderr=subprocess.DEVNULL).returncode
*sources, place = sys.argv[2:]
# What is copied before all else.
before = "first " if {copies_before!r} and "state" not in sources and not os.path.exists(os.path.join(place, "state")) else ""
status = 0
for source in sources:
    called = source.replace("segments", "objects")
    step(called)
    if called == "objects":
        os.makedirs(os.path.join(place, source), exist_ok=True)
        for name in sorted(os.listdir(source)):
            step(called + "/" + name)
            status |= copy(os.path.join(source, name), os.path.join(place, source))
    else:
        status |= copy(source, place)
    step("after " + called)
sys.exit(status)
"""


class Busy:
    """A host over a folder, and all that it was asked, in order."""

    def __init__(self, program, work, chance):
        self.program, self.work, self.chance = program, work, chance
        self.folder = Folder(os.path.join(work, "host"))
        self.serving = Serving(program, os.path.join(work, "socket"), 100000, "--dir", self.folder.path, *TENANTS)
        self.history, self.turns, self.held = History(chance, 12), [], None
        self.requests = Requests(chance, self.history, [b"alice", b"bob"])
        self.ask(*INITS)

    def ask(self, *turns, held=False):
        """Asks over one connection, which stays open if it is held, and otherwise ends."""
        stream, self.held = self.held or self.serving.client(), None
        reader = stream.makefile("rb")
        for who, payload in turns:
            stream.sendall(frame(who, payload))
            reader.read(int(reader.readline()))
            self.turns.append((who, payload))
        if held:
            self.held = stream
        else:
            reader.close()
            stream.close()
            # The next connection is served once the state is saved, if it is, and what was swept is let go.
            self.serving.told(frame(b"bob", b"quota\n"))

    def some(self):
        """A few random requests, with slices of sweeps between."""
        turns = self.requests.turns(self.chance.randint(0, 5))
        return [host_turn(self.chance) if self.chance.random() < 0.2 else turn for turn in turns]

    def let_go(self):
        if self.held:
            self.ask()

    def end(self):
        self.let_go()
        self.serving.child.kill()
        self.serving.child.wait()


class Copying:
    """The page's commands, perhaps changed, with what happens before each step of them."""

    def __init__(self, busy, change=lambda script: script):
        self.busy, self.place, tools = busy, os.path.join(busy.work, "copy"), os.path.join(busy.work, "tools")
        os.mkdir(tools)
        os.symlink(busy.program.path, os.path.join(tools, "forkhost"))
        self.listener = socket.socket(socket.AF_UNIX)
        self.listener.bind(os.path.join(busy.work, "steps"))
        self.listener.listen(1)
        self.page = commands(block("docs/OPERATING.md", "Backup", "forkhost check"))
        self.script = change(self.page)
        cp = CP.format(path=self.listener.getsockname(), cp="/bin/cp", copies_before=FIRST in self.script)
        for name, text in {"cp": cp, "sleep": "#!/bin/sh\n"}.items():
            with open(os.path.join(tools, name), "x", encoding="utf-8") as file:
                file.write(text)
            os.chmod(os.path.join(tools, name), 0o700)
        self.script = self.script.replace("/var/lib/forkhost/host", busy.folder.path)
        for called, place in {"new": self.place + ".new", "old": self.place + ".old", "host": self.place}.items():
            self.script = self.script.replace("/backup/" + called, place)
        self.environment = {**os.environ, "PATH": os.pathsep.join([tools, os.environ["PATH"]])}

    def run(self, happens):
        """How the commands end, and what their `check` says; and how much was asked when the journal was copied at last."""
        pipes = dict.fromkeys(["stdout", "stderr"], subprocess.PIPE)
        child = subprocess.Popen(["bash", "-c", self.script], env=self.environment, stdin=subprocess.DEVNULL, **pipes)
        tries = at_journal = 0
        while child.poll() is None:
            if not select.select([self.listener], [], [], 0.05)[0]:
                continue
            stream, _ = self.listener.accept()
            with stream:
                step = b"".join(iter(lambda: stream.recv(100), b"")).decode()
                tries += step == "state"
                happens(step, tries)
                at_journal = len(self.busy.turns) if step == "journal" else at_journal
        output, fault = child.communicate(timeout=PATIENCE)
        self.busy.let_go()
        return child.returncode, output, fault, at_journal


def shown(program, words, turns, history):
    """What is shown of a host after these turns, and which uploads are open."""
    last = looks(history) + DROPS
    ran = program.ran("run", *words, given=frames(turns + last))
    return ran._replace(output=b""), replies(ran.output)[0][-len(last) :]


def show_copy(checks, label, busy, happens):
    """The copy is sound, and is the host as it was when the journal was copied."""
    copying = Copying(busy)
    status, output, _, count = copying.run(happens)
    checks.same(f"{label}: check", (0, b"sound\n"), (status, output))
    wanted = shown(busy.program, TENANTS, busy.turns[:count], busy.history)
    checks.same(f"{label}: the copy has what the host had", wanted, shown(busy.program, ["--dir", copying.place], [], busy.history))
    checks.same(f"{label}: that was a host", done(), wanted[0])


def tip(busy, number, verb=b"create"):
    """A push of all that a commit leads to, under a branch."""
    name = busy.history.tips[number]
    return b"alice", b"push r\n" + busy.history.body([verb + b" refs/heads/a " + name], sorted(busy.history.closure(name)))


SPARE = [(b"alice", b"push q\n\n" + record(b"blob", b"nobody wants it\n")), (b"alice", b"prune\n"), (HOST, b"collect\n")]
GIVEN_UP = [(b"alice", b"drop r\n"), (b"alice", b"prune\n"), (HOST, b"collect\n"), (b"alice", b"init r\n")]


def begun(program, work, seed=0):
    """A host whose saved state has a commit, with a request in its journal."""
    busy = Busy(program, work, random.Random(seed))
    busy.ask(tip(busy, 5), *SPARE)
    busy.ask((b"bob", b"init s\n"))
    return busy


# What happens, by name: more objects come, or those of the state go; the state is saved after it, or the connection goes on.
HAPPENINGS = {
    "objects come, and the state is saved": lambda busy: busy.ask(tip(busy, -1, b"update"), *SPARE),
    "objects come": lambda busy: busy.ask(tip(busy, -1, b"update"), held=True),
    "objects go, and the state is saved": lambda busy: busy.ask(*GIVEN_UP),
    "objects go": lambda busy: busy.ask(*GIVEN_UP, held=True),
}
STEPS = ["first after objects", "state", "journal", "objects", "after objects"]
BEFORE, LOGS = "before=$(now)", "$(ls | grep uploads)"
FIRST = "{ test -e segments || files; }"
OBJECTS = "if test -e segments; then cp -a segments /backup/new; else files; fi"
COPIES = f"{BEFORE} && cp -a state journal {LOGS} /backup/new &&\n  {OBJECTS}"
LOOK = ' && test "$before" = "$(now)"; do'
LOOK_AT_LOGS = "stat -c %i:%w uploads.* 2> /dev/null; "
# Wrong commands; what happens to show it, and before which step; and how the copy is refused.
WRONG = {
    "objects first": (
        (COPIES, f"{OBJECTS} && {BEFORE} && cp -a state journal {LOGS} /backup/new"),
        ("objects come, and the state is saved", "after objects", b"lost "),
    ),
    "the journal before the state": (
        (COPIES, f"cp -a journal {LOGS} /backup/new && {BEFORE} && cp -a state /backup/new && {OBJECTS}"),
        ("objects come, and the state is saved", "after journal", b"journal of another state"),
    ),
    "swept before objects": (
        (COPIES, f"{BEFORE} && cp -a state journal {LOGS} /backup/new && {{ test ! -e swept || cp -a swept /backup/new; }} && cp -a objects /backup/new"),
        ("objects go", "objects", b"lost "),
    ),
    "without the look at the state": ((LOOK, "; do"), ("objects go, and the state is saved", "after journal", b"lost ")),
}


# In a packed folder nothing moves from one place to another.
OF_FILES = "swept before objects"


def once(busy, step, happening):
    """It happens before this step, the first time."""
    due = [HAPPENINGS[happening]]
    return lambda found, _: due.pop()(busy) if found == step and due else None


def show_backups(checks, program, work):
    """Each thing happens before each step of the page's commands."""
    for number, (happening, step) in enumerate((happening, step) for happening in HAPPENINGS for step in STEPS):
        os.mkdir(place := os.path.join(work, str(number)))
        busy = begun(program, place)
        show_copy(checks, f"{happening} before {step}", busy, once(busy, step, happening))
        busy.end()


def show_second_backup(checks, program, work):
    """A copy takes the place of an older one, whatever an earlier try left beside that."""
    busy = begun(program, work)
    copying = Copying(busy)
    for place in ("", ".new", ".old"):
        os.makedirs(os.path.join(copying.place + place, "journal", "rubbish"))
    checks.same("check", (0, b"sound\n"), copying.run(lambda step, tries: None)[:2])
    checks.same("what is there", ["copy"], [it for it in sorted(os.listdir(work)) if it.startswith("copy")])
    checks.same("the journals", [], [it for it in os.listdir(os.path.join(copying.place, "journal")) if it == "rubbish"])
    busy.end()


def show_wrong_backups(checks, program, work):
    """Wrong commands make a copy that is refused."""
    for number, (label, ((old, new), (happening, step, fault))) in enumerate(WRONG.items()):
        os.mkdir(place := os.path.join(work, str(number)))
        busy = begun(program, place)
        if label == OF_FILES and busy.folder.segments():
            busy.end()
            continue
        copying = Copying(busy, lambda script: script.replace(FIRST, "true").replace(old, new))
        checks.same(f"{label}: the commands are others", True, old in copying.page)
        status, output, said, _ = copying.run(once(busy, step, happening))
        last = said.splitlines()[-1:]
        checks.same(f"{label}: check, {last}", (1, b"", [True]), (status, output, [fault in row for row in last]))
        busy.end()


# A push that is refused leaves its objects until a sweep, and nothing in the journal.
REFUSED = (b"bob", b"push r\ncreate refs/heads/x " + b"1" * 64 + b"\n\n" + b"".join(record(b"blob", b"%d" % at + bytes(30000)) for at in range(10)))


def show_moved_segments(checks, program, work):
    """What is live in a segment moves to a new one after the folder was listed, and no state is written. Without a look at what `cp`
    reports the copy is refused."""
    for label, change, end in (("a look", "", (0, b"sound\n")), ("no look", "fi &&", (1, b""))):
        os.mkdir(place := os.path.join(work, label.replace(" ", "-")))
        busy = begun(program, place)
        if busy.folder.segments():
            busy.ask(REFUSED, (HOST, b"collect\n"))
            busy.ask(REFUSED)
            due = [(HOST, b"collect\n")]
            happens = lambda step, _: busy.ask(due.pop()) if step.startswith("objects/") and due else None
            status, output, said, _ = Copying(busy, lambda script: script.replace(change, "fi;") if change else script).run(happens)
            checks.same(f"{label} at what cp reports: check, {said[-100:]}", end, (status, output))
            checks.same("it was swept", [], due)
        busy.end()


def upload(fill):
    """An upload of more than 1 MiB."""
    return [(b"bob", b"part\n\n" + record(b"blob", fill * 1_000_000)), (b"bob", b"part\n" + record(b"blob", fill * 100_000))]


def begin_another(busy):
    """The log of uploads goes, and another one of its name comes, while the state stays."""
    for turns in ([(b"bob", b"part-drop\n")], upload(b"y")):
        busy.ask(*turns, *SPARE)


def show_log_backups(checks, program, work):
    """Between the journal and the log another log of this name comes. Without a look at the logs the copy is refused."""
    for label, change, end in (("a look", "", (0, b"sound\n")), ("no look", LOOK_AT_LOGS, (1, b""))):
        os.mkdir(place := os.path.join(work, label.replace(" ", "-")))
        busy = Busy(program, place, random.Random(1))
        busy.ask(*upload(b"x"), *SPARE)
        due = [begin_another]
        happens = lambda step, _: due.pop()(busy) if step == "after journal" and due else None
        status, output, said, _ = Copying(busy, lambda script: script.replace(change, "") if change else script).run(happens)
        checks.same(f"{label} at the logs: check, {said[-100:]}", end, (status, output))
        busy.end()


def show_busy_backups(checks, program, work):
    """Random requests go on all the time: at first also with savings between."""
    for seed in range(SEEDS):
        os.mkdir(place := os.path.join(work, str(seed)))
        busy = Busy(program, place, random.Random(seed))
        for _ in range(3):
            busy.ask(*busy.some())
        happens = lambda _, tries: busy.ask(*busy.some(), held=tries > DISTURBED) if busy.chance.random() < 0.3 else None
        show_copy(checks, f"seed {seed}", busy, happens)
        busy.end()
