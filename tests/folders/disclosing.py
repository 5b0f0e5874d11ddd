"""What an offer shows to the tenant that it was made to, what it does not show, and what its giver does not learn."""
import os
import random

from folders.asking import HEADS, History, Requests
from folders.beside import ALICE, KINDS, OTHERS, OWN, LIMITS, apart, one_of_each, other_turns, ran, told, verb
from folders.cases import B, C, D, G, O, OBJECTS, T, commit, raw, tag
from folders.sweeps import HOST
from lib.objects import name_of, record

BOB = b"bob"
NAMES = sorted(OBJECTS)
GIVERS = [b"bob", b"zoe"]
COUNT = 200
OFFERING = [b"offer", b"withdraw", b"offers", b"fork-offer"]
SEEDS = 6


def linking(name):
    """Objects that link to one, as far as any may."""
    kind = OBJECTS[name][0]
    yield record(b"tag", tag(name, kind))
    if kind in (b"blob", b"tree"):
        mode = b"100644" if kind == b"blob" else b"40000"
        yield record(b"tree", mode + b" x\0" + raw(name))
    if kind == b"tree":
        yield record(b"commit", commit(name))
    if kind == b"commit":
        empty = (b"tree", b"")
        yield record(*empty) + record(b"commit", commit(name_of(*empty), name))


def about(name):
    """What may be asked about an object by who has a repository `q` with a branch `refs/heads/a`."""
    yield from (b"%s %s\n" % (word, name) for word in (b"cat-file", b"ls-tree"))
    for word in (b"rev-list", b"fetch"):
        yield from (b"%s q %s\n" % (word, item % name) for item in (b"%s", b"^%s", b"refs/heads/a ^%s", b"%s HEAD"))
    yield from (b"merge-base q %s\n" % (pair % name) for pair in (b"%s refs/heads/a", b"refs/heads/a %s", b"HEAD %s"))
    commands = [b"%s refs/heads/a %s" % (word, name) for word in (b"update", b"verify", b"delete")]
    commands += [b"create refs/%s/z %s" % (space, name) for space in (b"heads", b"tags")]
    for command in [*commands, b"update refs/tags/z %s %s" % (name, b"0" * 64)]:
        yield b"update-refs q\n%s\n" % command
        yield b"push q\n%s\n\n" % command
    for records in linking(name):
        yield b"push q\n\n" + records
        yield from (b"part\n\n" + records, b"part-end q\n")
    yield from (b"quota\n", b"for-each-ref q\n", b"for-each-ref r\n", b"head r\n", b"fork r s\n", b"drop r\n")


# What bob has of his own, and what he asks before an offer stands, while it does, and after it.
HIS = [
    b"init q\n",
    b"push q\ncreate refs/heads/a %s\n\n" % name_of(b"commit", commit(name_of(b"tree", b"")))
    + record(b"tree", b"")
    + record(b"commit", commit(name_of(b"tree", b""))),
]
ROUND = [payload for name in NAMES for payload in about(name)] + [b"prune\n", b"quota\n"]
GONE = [b"offers\n", b"fork-offer alice r s\n", b"for-each-ref s\n"]
NOT_THERE = [b"fork-offer alice q s\n", b"fork-offer bob r s\n", b"fork-offer carol r s\n", b"withdraw r alice\n"]
HERS = [b"init r\n", b"push r\ncreate refs/heads/main %s\ncreate refs/tags/v %s\ncreate refs/tags/o %s\n\n" % (D, G, O)]
HERS[1] += b"".join(record(*thing) for thing in OBJECTS.values())


def show_offered_objects(checks, program, work):
    """Before he forks an offer, and after its withdrawal, bob gets what a host without it tells of all its objects."""
    rounds = [[*GONE, *ROUND], [*NOT_THERE, *ROUND], [*GONE, *NOT_THERE, *ROUND]]
    changes = [(ALICE, b"offer r bob\n"), (ALICE, b"withdraw r bob\n")]
    beside = [*((ALICE, payload) for payload in HERS), *((BOB, payload) for payload in HIS)]
    for asked, change in zip(rounds, [*changes, (HOST, b"collect\n")]):
        beside += [*((BOB, payload) for payload in asked), change]
    alone = [(who, payload) for who, payload in beside if who == BOB]
    for place in ("memory", "folder"):
        kept = [["--dir", os.path.join(work, name)] if place == "folder" else [] for name in ("beside", "alone")]
        wanted = ran(checks, f"{place}, alone", program, [*kept[1], "bob=100000"], alone)
        answers = ran(checks, f"{place}, beside", program, [*kept[0], "alice=100000", "bob=100000"], beside)
        for (_, payload), reply, other in zip(alone, wanted, told(beside, answers, BOB)):
            checks.same(f"{place}: {payload[:90]!r}", reply, other)
        checks.same(f"{place}: alice is answered", [b"ok\n"] * 4, told(beside, answers, ALICE))
        checks.same(f"{place}: much is refused", True, sum(reply.startswith(b"no missing ") for reply in wanted) > 200)


def gifts(history):
    """What the givers make of a history: a repository each, the tip of which moves on."""
    for at, giver in enumerate(GIVERS):
        tip = history.tips[at]
        commands = [b"create %s %s" % (HEADS[0], tip), b"create refs/tags/t %s" % history.tags[0]]
        names = sorted(history.closure(tip) | history.closure(history.tags[0]))
        yield giver, b"init gift\n"
        yield giver, b"push gift\n" + history.body(commands, names)
        yield giver, b"set-head gift %s\n" % HEADS[0]


def offered(history):
    """What the givers do, one after another between the tenant's requests; a few turns at each place."""
    moved = [b"update %s %s" % (HEADS[0], history.tips[-1])]
    push = b"push gift\n" + history.body(moved, sorted(history.closure(history.tips[-1])))
    for giver in GIVERS * 2:
        yield [(giver, b"offer gift alice\n")]
        yield [(giver, push), (giver, b"prune\n")]
        yield [(giver, b"withdraw gift alice\n"), (giver, b"offer gift alice\n")]
        yield [(giver, b"drop gift\n"), (giver, b"prune\n"), (HOST, b"collect\n")]
        yield [(giver, b"withdraw gift alice\n"), (giver, b"prune\n")]
        yield [(giver, b"init gift\n"), (giver, push.replace(b"update ", b"create ", 1))]


def takes(history, number):
    """What a tenant asks that was offered something, by the one or the other."""
    copy = b"g%d" % number
    yield b"cat-file %s\n" % history.tips[0]
    yield from (b"offers\n", *(b"fork-offer %s gift %s\n" % (giver, copy) for giver in GIVERS), b"offers\n", b"quota\n")
    yield from (b"for-each-ref %s\n" % copy, b"head %s\n" % copy, b"fetch %s HEAD\n" % copy)
    yield b"cat-file %s\n" % history.tips[number % len(history.tips)]
    yield from (b"offer %s zoe\n" % copy, b"drop %s\n" % copy, b"withdraw %s zoe\n" % copy, b"prune\n")


def own_requests(chance, history, gift):
    """The tenant's 200 requests, every kind among them."""
    requests = Requests(chance, history, [*OTHERS, b"nobody"])
    runs = one_of_each(chance, requests, history) * 2
    runs += [list(takes(gift, number)) for number in range(8)]
    chance.shuffle(runs)
    asked = [b"init r\n"] + [payload for run in runs for payload in run]
    while len(asked) < COUNT:
        asked += requests.payloads(ALICE)[: COUNT - len(asked)]
    return asked


def beside(chance, own, gift, others):
    """A session in which the givers' turns stand at the same places between the tenant's requests, and those of others,
    who hold this history, anywhere."""
    turns, events = list(gifts(gift)), list(offered(gift))
    step = len(own) // (len(events) + 1)
    for number, payload in enumerate(own):
        if number % step == 0 and number // step in range(1, len(events) + 1):
            turns += events[number // step - 1]
        turns += others(chance)
        turns.append((ALICE, payload))
    return turns


def holding(history):
    """Others who have this history, offer it to each other, and fork what the tenant offers to them."""
    requests = Requests(random.Random(1), history, OTHERS)

    def others(chance):
        for _ in range(chance.randint(0, 3)):
            who = chance.choice(OTHERS)
            yield from ((who, payload) for payload in requests.payloads(who))
            yield who, b"fork-offer alice %s t%d\n" % (chance.choice([b"q", b"r", b"s"]), chance.randrange(200))
        yield from other_turns(chance, history, chance.randint(0, 1))

    return others


def nobody(chance):
    return []


def show_equal_offers(checks, program, work):
    """With equal offers at the same places it is all the same what the others hold and do beside them."""
    for seed in range(SEEDS):
        chance = random.Random(seed)
        history, gift = History(chance, 12), History(chance, 5)
        own = own_requests(chance, history, gift)
        kinds = {*KINDS, *OFFERING} - set(map(verb, own))
        checks.same(f"seed {seed}: its requests", (COUNT, set()), (len(own), kinds))
        ways = (nobody, holding(history), holding(apart(chance, history)))
        sessions = [beside(chance, own, gift, others) for others in ways]
        for place in ("memory", "folder"):
            found = []
            for at, turns in enumerate(sessions):
                kept = ["--dir", os.path.join(work, f"{seed}-{at}")] if place == "folder" else []
                label = f"seed {seed}, {place}, host {at}"
                answers = ran(checks, label, program, [*kept, OWN, *LIMITS], turns)
                found.append(told(turns, answers, ALICE))
                show_taken(checks, label, own, found[-1])
                given = [reply for (who, asked), reply in zip(turns, answers) if who != ALICE and b" gift" in asked]
                checks.same(f"{label}: offers are made and withdrawn", {b"ok\n"}, set(given))
            for payload, *alike in zip(own, *found):
                checks.same(f"seed {seed}, {place}: {payload[:60]!r}", 1, len(set(alike)))


def show_taken(checks, label, own, answers):
    """Some offers were forked, some were not there, and nothing failed."""
    takes = [reply for payload, reply in zip(own, answers) if verb(payload) == b"fork-offer"]
    checks.same(f"{label}: offers are forked", True, takes.count(b"ok\n") > 1)
    checks.same(f"{label}: others are not there", True, any(reply.startswith(b"no no-offer ") for reply in takes))
    checks.same(f"{label}: no host fault", [], [reply for reply in answers if reply.startswith(b"host ")])


# What a giver asks, who would like to know what became of its offers.
GIVES = [
    *HERS,
    *(b"offer r bob\n", b"offers\n", b"offer r bob\n", b"quota\n", b"fork-offer bob s t\n", b"fork-offer alice r t\n"),
    *(b"update-refs r\ndelete refs/heads/main\n", b"prune\n", b"quota\n", b"offer r nobody\n", b"offers\n"),
    *(b"cat-file %s\n" % D, b"drop r\n", b"prune\n", b"quota\n", b"withdraw r bob\n", b"withdraw r bob\n", b"offers\n"),
    *(b"prune\n", b"quota\n", b"cat-file %s\n" % D, b"cat-file %s\n" % B, b"cat-file %s\n" % C, b"ls-tree %s\n" % T),
    *(b"init r\n", b"offer r bob\n", b"push r\n\n" + record(*OBJECTS[T]), b"withdraw r nobody\n", b"offers\n", b"quota\n"),
]


def taking(number):
    """Bob forks what is offered to him after each of its giver's requests, and offers it to others."""
    return [(BOB, b"fork-offer alice r b%d\n" % number), (BOB, b"offer b%d carol\n" % number)]


def holds_all(number):
    """Bob has all of it by a push of his own, and forks nothing."""
    return [(BOB, b"init r\n"), (BOB, HERS[1])] if number == 0 else []


def show_givers(checks, program, work):
    """A giver is told the same whether the receiver is a tenant, forked the offer, or has it all already."""
    receivers = {"takes it": taking, "holds it": holds_all, "sleeps": lambda number: [], "is no tenant": None}
    found = {}
    for label, does in receivers.items():
        turns = []
        for number, payload in enumerate(GIVES):
            turns += [(ALICE, payload), *((does or (lambda at: []))(number))]
        words = ["alice=100000", *(["bob=100000"] if does else [])]
        for place in ("memory", "folder"):
            kept = ["--dir", os.path.join(work, label)] if place == "folder" else []
            answers = ran(checks, f"who {label}, {place}", program, [*kept, *words], turns)
            found[label, place] = told(turns, answers, ALICE)
            if does is taking:
                taken = told(turns, answers, BOB)[::2]
                checks.same(f"who {label}, {place}: it does", True, taken.count(b"ok\n") > 9)
    wanted = found["is no tenant", "memory"]
    checks.same("offers are made", True, wanted.count(b"ok\n") > 12)
    for label, answers in found.items():
        for payload, reply, other in zip(GIVES, wanted, answers):
            checks.same(f"who {label}: {payload[:40]!r}", reply, other)
