"""A tenant beside others that have much of what it has, beside others that have none of it, and alone."""
import os
import random

from folders.asking import ABSENT, HEADS, History, Requests
from folders.sweeps import COUNT, HOST, host_turn
from lib.frames import frames, replies
from lib.objects import record
from lib.program import done

ALICE, OTHERS = b"alice", [b"a", b"bob", b"carol", b"zoe"]
OWN, LIMITS = "alice=20000", ["a=1000000", "bob=1000000", "carol=4000", "zoe=1000000"]
SEEDS = 12
COUNT_OWN = 40
KINDS = [
    *(b"init", b"drop", b"fork", b"push", b"part", b"part-end", b"part-drop", b"update-refs", b"set-head", b"prune"),
    *(b"cat-file", b"ls-tree", b"rev-list", b"merge-base", b"fetch", b"for-each-ref", b"head", b"repos", b"quota", b"nothing"),
]


def verb(payload):
    return payload.split(b"\n", 1)[0].split(b" ", 1)[0]


def one_of_each(chance, requests, history):
    """Runs of requests that have every kind among them."""
    tip, name = chance.choice(history.tips), chance.choice(history.names)
    body = requests.push()
    return [
        [b"push r\n" + history.body([b"create %s %s" % (HEADS[0], tip)], sorted(history.closure(tip)))],
        [b"part\n" + body[:50], b"part\n" + body[50:], b"part-end r\n"],
        [b"part\nabc", b"part-drop\n"],
        [b"fork r s\n", b"drop s\n"],
        [b"update-refs r\ncreate refs/heads/z %s\n" % tip],
        [b"set-head r %s\n" % HEADS[0], b"head r\n", b"rev-list r HEAD\n", b"fetch r %s ^HEAD\n" % tip],
        [b"cat-file %s\n" % name, b"cat-file %s\n" % ABSENT],
        [b"ls-tree %s\n" % tip, b"rev-list r %s\n" % HEADS[0], b"merge-base r %s %s\n" % (HEADS[0], tip)],
        [b"fetch r %s\n" % HEADS[0], b"for-each-ref r\n", b"repos\n", b"quota\n"],
        [b"prune\n"],
        [b"nothing\n"],
    ]


def own_requests(chance, history):
    """The tenant's 40 requests."""
    requests = Requests(chance, history)
    runs = one_of_each(chance, requests, history)
    chance.shuffle(runs)
    asked = [b"init r\n"] + [payload for run in runs for payload in run]
    while len(asked) < COUNT_OWN:
        asked += requests.payloads()[: COUNT_OWN - len(asked)]
    return asked


def other_turns(chance, history, count):
    """What others ask, who hold parts of a history, and sweeps between."""
    requests = Requests(chance, history)
    for _ in range(count):
        if chance.random() < 0.4:
            yield host_turn(chance)
        who = chance.choice(OTHERS)
        yield from ((who, payload) for payload in requests.payloads())


def begun(history):
    """The others make repositories, and all but one push the whole history; one gives up what it pushed beside it."""
    yield from ((who, b"init %s\n" % place) for who in OTHERS for place in (b"q", b"r", b"s"))
    whole = history.body([b"create refs/heads/all %s" % history.tips[-1]], history.names)
    yield from ((who, b"push q\n" + whole) for who in OTHERS)
    yield OTHERS[-1], b"push r\n\n" + b"".join(record(b"blob", b"spare %d\n" % number) for number in range(9))
    yield OTHERS[-1], b"prune\n"


def among_others(chance, own, history):
    """A session in which the tenant's requests are among those of others."""
    turns = list(begun(history))
    for payload in own:
        turns += other_turns(chance, history, chance.randint(0, 4))
        turns.append((ALICE, payload))
    return [*turns, (HOST, b"collect\n")]


def told(turns, answers, who):
    return [reply for (asker, _), reply in zip(turns, answers) if asker == who]


def apart(chance, history):
    """A history that shares no object with this one."""
    while set((other := History(chance, 12)).names) & set(history.names):
        pass
    return other


def ran(checks, label, program, words, turns):
    """The answers of one session."""
    ended = program.ran("run", *words, given=frames(turns))
    answers, rest = replies(ended.output)
    checks.same(f"{label}: its end", (done(), len(turns), b""), (ended._replace(output=b""), len(answers), rest))
    return answers


def show_others(checks, label, turns, answers):
    """The others hold what they are to hold, but for one whose limit is too small; and sweeps take something away."""
    counts = [COUNT.fullmatch(reply) for reply in told(turns, answers, HOST)]
    checks.same(f"{label}: sweeps are answered", True, bool(counts) and None not in counts)
    rounds = [reply for (_, payload), reply in zip(turns, answers) if payload == b"collect\n" or payload[:5] == b"sweep"]
    checks.same(f"{label}: something is swept", True, any(reply != b"ok\n0\n" for reply in rounds))
    pushes = answers[3 * len(OTHERS) :][: len(OTHERS)]
    checks.same(f"{label}: others hold the history", len(OTHERS) - 1, pushes.count(b"ok\n"))


def show_alike(checks, program, work):
    for seed in range(SEEDS):
        chance = random.Random(seed)
        history = History(chance, 12)
        own = own_requests(chance, history)
        checks.same(f"seed {seed}: its requests", (COUNT_OWN, set()), (len(own), set(KINDS) - set(map(verb, own))))
        alone = [(ALICE, payload) for payload in own]
        sessions = [among_others(chance, own, held) for held in (history, apart(chance, history))]
        for place in ("memory", "folder"):
            kept = [["--dir", os.path.join(work, f"{seed}-{at}")] if place == "folder" else [] for at in range(3)]
            label = f"seed {seed}, {place}"
            wanted = ran(checks, f"{label}, alone", program, [*kept[2], OWN], alone)
            checks.same(f"{label}: no host fault", [], [reply for reply in wanted if reply.startswith(b"host ")])
            for at, turns in enumerate(sessions):
                answers = ran(checks, f"{label}, host {at}", program, [*kept[at], OWN, *LIMITS], turns)
                checks.same(f"{label}, host {at}: what it is told", wanted, told(turns, answers, ALICE))
                show_others(checks, f"{label}, host {at}", turns, answers)
