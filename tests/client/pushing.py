"""Pushes beside those of Git over a folder: the same words, the same status, the same references afterwards."""
import os

from lib.making import commit, hashed, line
from lib.program import done
from lib.watching import Watcher
from lib.world import World


class Both:
    """One source, a bare repository in a folder and one of the host, which have the same references."""

    def __init__(self, world, label, refs):
        """They begin with these references, by revisions of the source, and with their objects."""
        self.world, self.checks, self.label = world, world.checks, label
        names = [world.name("source", revision) for revision in refs.values()]
        world.remove("bare")
        world.output(None, "init", "-q", "--bare", "--object-format=sha256", "bare")
        for words in (["drop", "r"], ["prune"], ["init", "r"]):
            world.ask("alice", *words)
        self.urls = [world.path("bare"), world.url("r")]
        tips = "\n".join(names).encode()
        reached = world.output("source", "rev-list", "--objects", "--no-object-names", "--stdin", given=tips)
        records = world.git("source", "cat-file", "--batch", given=reached.encode()).output if names else b""
        commands = "".join(f"create {ref} {name}\n" for ref, name in zip(refs, names)).encode()
        ran = world.ask("alice", "push", "r", given=commands + b"\n" + records)
        self.checks.same(f"{label}: what is there before", done(), ran)
        if names:
            world.output("source", "push", "-q", self.urls[0], *(f"{name}:{ref}" for ref, name in zip(refs, names)))

    def push(self, *words, at="source"):
        """A push to both. The rows that Git prints of each reference are the same, and so is what is there then."""
        told = []
        for url in self.urls:
            ran = self.world.git(at, "push", "--porcelain", *(word.replace("URL", url) for word in words))
            rows = [row for row in ran.output.decode().splitlines() if row[:1] in " =*!+-" and "\t" in row]
            told.append((ran.status, sorted(rows)))
        self.checks.same(f"{self.label}: as over a folder", *told)
        self.checks.same(f"{self.label}: references", self.world.references("bare"), self.world.kept("r"))
        return told[1]


MAIN = {"refs/heads/main": "two"}
# What is pushed to which references, all by `git push --porcelain`.
PUSHES = {
    "a new branch": ({}, ["URL", "two:refs/heads/main"]),
    "forward": (MAIN, ["URL", "three:main"]),
    "up to date": (MAIN, ["URL", "two:main"]),
    "aside": (MAIN, ["URL", "side:main"]),
    "aside, forced": (MAIN, ["URL", "+side:main"]),
    "aside, all forced": (MAIN, ["--force", "URL", "side:main", "three:refs/heads/x"]),
    "back": (MAIN, ["URL", "one:main"]),
    "back, forced": (MAIN, ["-f", "URL", "one:main"]),
    "of HEAD": ({}, ["URL", "HEAD:refs/heads/x"]),
    "of a name": ({}, ["URL", "three~1:refs/heads/x"]),
    "several": (MAIN, ["URL", "three:main", "side:refs/heads/side", "one:refs/tags/t"]),
    "several, one aside": (MAIN, ["URL", "side:main", "three:refs/heads/x"]),
    "several, one aside, all or none": (MAIN, ["--atomic", "URL", "side:main", "three:refs/heads/x"]),
    "several, all or none": (MAIN, ["--atomic", "URL", "three:main", "side:refs/heads/x"]),
    "a deletion": (MAIN | {"refs/heads/x": "one"}, ["URL", ":x"]),
    "a deletion and more": (MAIN | {"refs/heads/x": "one"}, ["--atomic", "URL", ":x", "three:main"]),
    "a deletion by its option": (MAIN | {"refs/tags/x": "one"}, ["-d", "URL", "refs/tags/x"]),
    "of all branches": (MAIN, ["--all", "-f", "URL"]),
    "of all tags": (MAIN, ["--tags", "URL"]),
    "with tags": (MAIN, ["--follow-tags", "URL", "three:main"]),
    "a mirror": (MAIN | {"refs/heads/gone": "one", "refs/x/y": "two"}, ["--mirror", "URL"]),
    "pruned": ({"refs/heads/gone": "one"}, ["--prune", "URL", "refs/heads/*:refs/heads/*"]),
    "a tag that is there": ({"refs/tags/t": "one"}, ["URL", "two:refs/tags/t"]),
    "a tag that is there, forced": ({"refs/tags/t": "one"}, ["URL", "+two:refs/tags/t"]),
    "a tag object over its commit": ({"refs/x/y": "three"}, ["URL", "annotated:refs/x/y"]),
    "a tag object over a commit aside": ({"refs/x/y": "side"}, ["URL", "annotated:refs/x/y"]),
    "a tree over a tree": ({"refs/x/t": "one^{tree}"}, ["URL", "two^{tree}:refs/x/t"]),
    "a tree over a tree, forced": ({"refs/x/t": "one^{tree}"}, ["URL", "+two^{tree}:refs/x/t"]),
    "a blob": ({}, ["URL", "blob:refs/tags/blob"]),
    "a lease that holds": (MAIN, ["--force-with-lease=main:TWO", "URL", "side:main"]),
    "a lease that does not": (MAIN, ["--force-with-lease=main:ONE", "URL", "side:main"]),
    "a lease on nothing": ({}, ["--force-with-lease=x:", "URL", "side:refs/heads/x"]),
    "a lease on nothing, but it is there": (MAIN, ["--force-with-lease=main:", "URL", "side:main"]),
    "a lease and a deletion": ({"refs/heads/x": "two"}, ["--force-with-lease=x:TWO", "URL", ":x"]),
    "a lease that does not hold, and a deletion": ({"refs/heads/x": "two"}, ["--force-with-lease=x:ONE", "URL", ":x"]),
    "a lease that does not hold, forced": (MAIN, ["--force", "--force-with-lease=main:ONE", "URL", "side:main"]),
    "a lease that does not hold, a forced deletion": (
        MAIN | {"refs/heads/x": "two"},
        ["-f", "--force-with-lease=x:ONE", "URL", ":x"],
    ),
    "if includes": (MAIN, ["--force-with-lease=main:TWO", "--force-if-includes", "URL", "side:main"]),
    "if includes, by the list": (MAIN, ["--force-with-lease", "--force-if-includes", "URL", "three:main"]),
    "a deletion of what is not there": (MAIN, ["URL", ":refs/heads/nothing"]),
    "deletions, all or none": (MAIN, ["--atomic", "URL", ":refs/heads/nothing", "three:main"]),
    "a lease of many": (MAIN, ["--atomic", "--force-with-lease=main:ONE", "URL", "side:main", "three:refs/heads/x"]),
    "dry": (MAIN, ["--dry-run", "URL", "three:main", "side:refs/heads/x"]),
    "dry, forced": (MAIN, ["-n", "-f", "URL", "side:main"]),
    "dry, a deletion": (MAIN, ["-n", "URL", ":main"]),
    "what is not here": (MAIN, ["URL", "nothing:main"]),
}


def sources(world):
    """A line of three commits, one aside, and tags of it."""
    world.repository("source")
    one, two, three = line(world, "source", "one", "two", "three")
    line(world, "source", "side", branch="side", parent=one)
    for label, name in (("one", one), ("two", two), ("three", three)):
        world.output("source", "tag", label, name)
    world.output("source", "tag", "-a", "-m", "x", "annotated", three)
    world.output("source", "tag", "blob", hashed(world, "source", "blob", b"a blob\n"))
    return {"ONE": one, "TWO": two}


def show_pushes(checks, program, folder):
    world = World(checks, program, folder)
    names = sources(world)
    for label, (refs, words) in PUSHES.items():
        for word, name in names.items():
            words = [text.replace(word, name) for text in words]
        Both(world, label, refs).push(*words)
    world.host.ends_well(checks, "after pushes")


def show_first(checks, program, folder):
    """What the host has and this side does not: fetch first; and then it goes."""
    world = World(checks, program, folder)
    sources(world)
    both = Both(world, "fetch first", MAIN)
    world.output(None, "clone", "-q", world.path("bare"), "other")
    tip = commit(world, "other", "other", "HEAD")
    both.label = "another pushes"
    both.push("URL", "main", at="other")
    both.label = "fetch first"
    status, rows = both.push("URL", "three:main")
    checks.same("fetch first is said", (1, True), (status, "[rejected] (fetch first)" in rows[0]))
    ran = world.git("source", "push", "--porcelain", "--atomic", world.url("r"), "three:main", "side:refs/heads/x")
    told = sorted(row.split("\t")[2] for row in ran.output.decode().splitlines() if row[:1] == "!")
    wanted = ["[rejected] (fetch first)", "[remote rejected] (atomic push failed)"]
    checks.same("fetch first, all or none", (1, wanted), (ran.status, told))
    checks.same("and none it is", [f"{tip} refs/heads/main"], world.kept("r"))
    both.label = "a lease on what is not here"
    status, _ = both.push("--dry-run", f"--force-with-lease=main:{tip}", "URL", "three:main")
    checks.same("a lease on what is not here is enough", 0, status)
    world.succeeds("it is fetched", world.git("source", "fetch", "-q", world.url("r"), "main"))
    both.label = "non-fast-forward"
    status, rows = both.push("URL", "three:main")
    checks.same("then it is no longer forward", (1, True), (status, "[rejected] (non-fast-forward)" in rows[0]))
    both.label = "forced"
    both.push("URL", "+three:main")
    checks.same("the other commit is gone", False, any(tip in row for row in world.kept("r")))
    world.output("source", "remote", "add", "origin", world.url("r"))
    world.output("source", "push", "-q", "-u", "origin", "side:side", "three:refs/heads/t")
    tracked = world.output("source", "for-each-ref", "--format=%(refname)", "refs/remotes").splitlines()
    checks.same("what is pushed is tracked", ["refs/remotes/origin/side", "refs/remotes/origin/t"], tracked)
    show_told(world)
    world.host.ends_well(checks, "after fetch first")


def show_told(world):
    """Progress where it is asked for, and silence where that is."""
    tip = commit(world, "source", "shown", "three", branch="shown")
    ran = world.git("source", "push", "-q", "origin", f"{tip}:refs/heads/q")
    world.checks.same("a silent push", (0, b"", b""), ran)
    tip = commit(world, "source", "again", tip, branch="shown")
    ran = world.git("source", "push", "--progress", "origin", f"{tip}:refs/heads/p")
    world.checks.same("a push with progress", (0, True), (ran.status, b"Writing objects: 100%" in ran.fault))
    for words in (["fetch", "--progress"], ["clone", "--progress"]):
        world.remove("shown")
        world.repository("shown") if words[0] == "fetch" else None
        at, target = ("shown", []) if words[0] == "fetch" else (None, ["shown"])
        ran = world.git(at, *words, world.url("r"), *target)
        world.checks.same(f"{words[0]} with progress", (0, True), (ran.status, b"Receiving objects: " in ran.fault))
    for words in (["--signed"], ["-o", "x"]):
        ran = world.git("source", "push", *words, "origin", f"{tip}:refs/heads/no")
        world.checks.same(f"push {words[0]} is refused by Git", 128, ran.status)


RACE = """#!/bin/sh
[ -n "$INNER" ] && exit 0
INNER=1 git push -q --force "{url}" {what}
"""


def show_races(checks, program, folder):
    """Another client is faster: a hook pushes between the list and the push of the one that it belongs to."""
    world = World(checks, program, folder)
    sources(world)
    rows = {
        "forward": ("side:main", ["three:main"], "[rejected] (fetch first)"),
        "forced": ("side:main", ["+three:main"], "[rejected] (stale info)"),
        "with a lease": ("side:main", ["--force-with-lease=main:two", "three:main"], "[rejected] (stale info)"),
        "new": ("side:refs/heads/x", ["three:refs/heads/x"], "[rejected] (fetch first)"),
        "gone": (":main", [":main"], "[rejected] (stale info)"),
    }
    hook = world.path("source", ".git", "hooks", "pre-push")
    os.makedirs(os.path.dirname(hook), exist_ok=True)
    for label, (what, words, wanted) in rows.items():
        Both(world, label, MAIN)
        before = world.kept("r")
        with open(hook, "w", encoding="utf-8") as file:
            file.write(RACE.format(url=world.url("r"), what=what))
        os.chmod(hook, 0o755)
        words = [word.replace("main:two", f"main:{world.name('source', 'two')}") for word in words]
        options, refs = [word for word in words if word[:2] == "--"], [word for word in words if word[:2] != "--"]
        ran = world.git("source", "push", "--porcelain", *options, world.url("r"), *refs, "side:refs/heads/beside")
        told = ran.output.decode()
        checks.same(f"a race, {label}", (1, True), (ran.status, wanted in told))
        checks.same(f"a race, {label}: the faster one stays", True, world.kept("r") != before)
        beside = [row for row in world.kept("r") if row.endswith(" refs/heads/beside")]
        checks.same(f"a race, {label}: what is beside it goes", 1, len(beside))
        os.remove(hook)
    world.host.ends_well(checks, "after races")


def show_little(checks, program, folder):
    """A push sends what the tenant does not see, also where another repository of the tenant has it; nothing else."""
    world = World(checks, program, folder)
    world.init("alice", "r", "s")
    world.repository("source")
    commit(world, "source", "great", files={"great": "x" * 300_000})
    watcher = Watcher(world.path("watched"), world.host.socket)
    url = f"forkhost::{watcher.path}/alice/"
    world.succeeds("a first push", world.git("source", "push", "-q", url + "r", "main"))
    sent = [one.length for one in watcher.taken() if one.word() == "push"]
    checks.same("sends all", (1, True), (len(sent), sent[0] > 300_000))
    line(world, "source", "next", parent=world.name("source", "main"))
    world.succeeds("the next push", world.git("source", "push", "-q", url + "r", "main"))
    sent = [one.length for one in watcher.taken() if one.word() == "push"]
    checks.same("sends what is new", (1, True), (len(sent), sent[0] < 2000))
    world.succeeds("a push to another repository", world.git("source", "push", "-q", url + "s", "main"))
    sent = [one.length for one in watcher.taken() if one.word() == "push"]
    checks.same("sends no object", (1, True), (len(sent), sent[0] < 300))
    world.succeeds("a push that is up to date", world.git("source", "push", "-q", url + "s", "main"))
    checks.same("sends nothing", 0, watcher.words().count("push"))
    connections = watcher.connections
    world.succeeds("a dry push", world.git("source", "push", "-n", "-q", url + "s", "main:refs/heads/dry"))
    checks.same("sends nothing", 0, watcher.words().count("push"))
    checks.same("and has one connection for the list, one for the push", 2, watcher.connections - connections)
    world.host.ends_well(checks, "after little")
