"""Folders made by hand and what `check` finds in each: each refusal, and which of two is reported."""
import hashlib
import random

from folders.loading import verdict
from folders.state_text import Offer, Repository, Tenant, spelled
from lib.objects import USE, name_of, stored

ABSENT = b"f" * 64
WHO = b"A <a@x> 100 +0000"
BLOB, OTHER = b"hello\n", b"other\n"


def raw(name):
    return bytes.fromhex(name.decode())


def commit(tree, *parents):
    lines = [b"tree " + tree, *(b"parent " + parent for parent in parents), b"author " + WHO, b"committer " + WHO]
    return b"\n".join([*lines, b"", b"one", b""])


def tag(name, kind):
    return b"object %s\ntype %s\ntag v\ntagger %s\n\none\n" % (name, kind, WHO)


B, O = name_of(b"blob", BLOB), name_of(b"blob", OTHER)
TREE = b"100644 a\0" + raw(B)
T = name_of(b"tree", TREE)
FIRST = commit(T)
C = name_of(b"commit", FIRST)
SECOND = commit(T, C)
D = name_of(b"commit", SECOND)
TAG = tag(D, b"commit")
G = name_of(b"tag", TAG)
OBJECTS = {
    B: (b"blob", BLOB),
    O: (b"blob", OTHER),
    T: (b"tree", TREE),
    C: (b"commit", FIRST),
    D: (b"commit", SECOND),
    G: (b"tag", TAG),
}
FILES = {name: stored(*thing) for name, thing in OBJECTS.items()}
LIMIT = 10_000
USED = sum(len(content) + USE for _, content in OBJECTS.values())


def named(*things):
    """The files of these objects by their names."""
    return {name_of(*thing): stored(*thing) for thing in things}


def hashed(*files):
    """Files whose bytes have the name that they have, whatever they are."""
    return {hashlib.sha256(file).hexdigest().encode(): file for file in files}


def tenant(name, seen, references=(), limit=LIMIT):
    repositories = [Repository(b"r", dict(sorted(references)))] if references else []
    return Tenant(name, limit, repositories, sorted(seen))


def offering(seen, *references, own=(), limit=LIMIT):
    """A tenant that sees these, with references of its own, and of an offer to bob."""
    return tenant(b"alice", seen, own, limit)._replace(offers=[Offer(b"bob", b"r", dict(sorted(references)))])


def alone(seen, *references, limit=LIMIT):
    """The text of one tenant."""
    return spelled([tenant(b"alice", seen, references, limit)])


def cut(name):
    return {name: FILES[name][:-1]}


def lacking(*names):
    return {name: file for name, file in FILES.items() if name not in names}


MAIN, EXTRA = (b"refs/heads/main", D), (b"refs/tags/b", B)
ALL = alone(OBJECTS, MAIN, EXTRA)
BAD_TREE = b"100644 b\0" + raw(B) + b"100644 a\0" + raw(B)
WRONG_KIND = b"100644 a\0" + raw(T)
GITLINK = b"160000 a\0" + raw(ABSENT)
NO_TREE = commit(ABSENT)
TREE_OF_BLOB = commit(B)
PARENT_OF_TREE = commit(T, T)
WRONG_TAG = tag(D, b"tree")
NO_TAG = b"object " + D


def text(name):
    return name.decode()


def of_one(kind, content, told):
    """One object more, which all links may use."""
    extra = named((kind, content))
    (name,) = extra
    return alone([*OBJECTS, name]), FILES | extra, f"{told} {text(name)}" if told else "sound"


def of_bytes(file):
    """One file more whose bytes have its name, and that is none of an object."""
    extra = hashed(file)
    (name,) = extra
    return alone([name]), extra, f"damaged {text(name)}"


LOST = {
    "nothing is there": (alone([]), {}, "sound"),
    "all is there": (ALL, FILES, "sound"),
    "files that nobody sees": (alone([]), FILES | hashed(b"nonsense") | {ABSENT: b""}, "sound"),
    "a file is gone": (ALL, lacking(B), f"lost {text(B)}"),
    "two files are gone": (ALL, lacking(B, G), f"lost {text(min(B, G))}"),
    "no file is there": (ALL, {}, f"lost {text(min(OBJECTS))}"),
}

DAMAGED = {
    "a file is cut": (ALL, FILES | cut(G), f"damaged {text(G)}"),
    "a file is empty": (ALL, FILES | {B: b""}, f"damaged {text(B)}"),
    "a file is longer": (ALL, FILES | {B: FILES[B] + b"\n"}, f"damaged {text(B)}"),
    "a file is another's": (ALL, FILES | {B: FILES[O]}, f"damaged {text(B)}"),
    "a file is content alone": (ALL, FILES | {B: BLOB}, f"damaged {text(B)}"),
    "a file that is no object's": of_bytes(b"hello"),
    "a file of no kind": of_bytes(b"blub 1\0x"),
    "a length with a zero before it": of_bytes(b"blob 01\0x"),
    "a length that is too small": of_bytes(b"blob 0\0x"),
    "a length that is too great": of_bytes(b"blob 2\0x"),
    "a length with a sign": of_bytes(b"blob +1\0x"),
    "no length": of_bytes(b"blob \0"),
    "no zero byte": of_bytes(b"blob 0"),
}

UNSOUND = {
    "a tree out of order": of_one(b"tree", BAD_TREE, "unsound"),
    "a tree that is none": of_one(b"tree", b"x", "unsound"),
    "a tree with a file that is a tree": of_one(b"tree", WRONG_KIND, "unsound"),
    "a tree with a gitlink": of_one(b"tree", GITLINK, None),
    "a commit of no tree": of_one(b"commit", NO_TREE, "unsound"),
    "a commit of a blob": of_one(b"commit", TREE_OF_BLOB, "unsound"),
    "a commit whose parent is a tree": of_one(b"commit", PARENT_OF_TREE, "unsound"),
    "a commit that is none": of_one(b"commit", b"tree x\n", "unsound"),
    "a tag of another kind": of_one(b"tag", WRONG_TAG, "unsound"),
    "a tag that is none": of_one(b"tag", NO_TAG, "unsound"),
    "a link that is stored and not seen": (alone([C]), FILES, f"unsound {text(C)}"),
    "a link that another sees": (spelled([tenant(b"alice", [T]), tenant(b"bob", [B])]), FILES, f"unsound {text(T)}"),
    "a link to what is lost is passed over": (alone([B, T]), lacking(B), f"lost {text(B)}"),
    "a link to what is damaged is passed over": (alone([B, T]), FILES | cut(B), f"damaged {text(B)}"),
    "a reference to what is not seen": (alone([B], (b"refs/tags/o", O)), FILES, f"unsound {text(O)}"),
    "a reference to what is nowhere": (alone([B], (b"refs/tags/o", ABSENT)), FILES, f"unsound {text(ABSENT)}"),
    "a branch at a blob": (alone([B], (b"refs/heads/b", B)), FILES, f"unsound {text(B)}"),
    "a branch at a tag": (alone(OBJECTS, (b"refs/heads/b", G)), FILES, f"unsound {text(G)}"),
    "a tag at a tree": (alone(OBJECTS, (b"refs/tags/t", T)), FILES, "sound"),
    "another word at a tree": (alone(OBJECTS, (b"refs/head/t", T)), FILES, "sound"),
}

BOB, UNSEEN = tenant(b"bob", [O], limit=USED), (b"refs/tags/o", O)
OFFERS = {
    "an offer": (spelled([offering(OBJECTS, MAIN, EXTRA), BOB]), FILES, "sound"),
    "an offer of nothing": (spelled([offering([])]), {}, "sound"),
    "an offer to nobody": (spelled([offering(OBJECTS, MAIN, own=[EXTRA])]), FILES, "sound"),
    "an offer costs its receiver nothing": (
        spelled([offering(OBJECTS, MAIN), tenant(b"bob", [], limit=0)]),
        FILES,
        "sound",
    ),
    "an offer of what its giver does not see": (spelled([offering([B], UNSEEN)]), FILES, f"unsound {text(O)}"),
    "an offer of what its receiver sees": (spelled([offering([B], UNSEEN), BOB]), FILES, f"unsound {text(O)}"),
    "an offer of a branch at a blob": (spelled([offering([B], (b"refs/heads/b", B))]), FILES, f"unsound {text(B)}"),
    "an offer of what is lost": (spelled([offering(OBJECTS, MAIN)]), lacking(D), f"lost {text(D)}"),
    "a repository's references before those of an offer": (
        spelled([offering([B], UNSEEN, own=[(b"refs/tags/z", ABSENT)])]),
        FILES,
        f"unsound {text(ABSENT)}",
    ),
    "those of an offer before the later tenant's": (
        spelled([offering([B], UNSEEN), tenant(b"bob", [B], [(b"refs/tags/x", ABSENT)])]),
        FILES,
        f"unsound {text(O)}",
    ),
    "those of an offer before use": (spelled([offering([B], UNSEEN, limit=0)]), FILES, f"unsound {text(O)}"),
    "heads that are not there": (
        spelled([tenant(b"alice", [])._replace(repositories=[Repository(b"r", {}, b"refs/heads/none")])]),
        {},
        "sound",
    ),
}

LIMITS = {
    "the limit is used": (alone(OBJECTS, MAIN, limit=USED), FILES, "sound"),
    "one more is used": (alone(OBJECTS, MAIN, limit=USED - 1), FILES, "over limit alice"),
    "nothing is used of none": (alone([], limit=0), FILES, "sound"),
    "each tenant's use counts in full": (
        spelled([tenant(b"alice", [B], limit=70), tenant(b"bob", [B], limit=69), tenant(b"carol", [B], limit=0)]),
        FILES,
        "over limit bob",
    ),
}

ORDERS = {
    "a wrong line before what is lost": (ALL + b"x", {}, "state line 14"),
    "objects by the text's order, whatever is wrong": (
        alone([B, O], limit=0),
        {max(B, O): b""},
        f"lost {text(min(B, O))}",
    ),
    "the later tenant's objects before references": (
        spelled([tenant(b"alice", [B], [(b"refs/tags/o", O)]), tenant(b"bob", [O])]),
        lacking(O),
        f"lost {text(O)}",
    ),
    "references before use": (alone([B], (b"refs/tags/o", O), limit=0), FILES, f"unsound {text(O)}"),
    "the later tenant's references before use": (
        spelled([tenant(b"alice", [B], limit=0), tenant(b"bob", [B], [(b"refs/heads/b", B)])]),
        FILES,
        f"unsound {text(B)}",
    ),
    "the earlier reference": (
        alone([B, O], (b"refs/heads/b", O), (b"refs/tags/x", ABSENT)),
        FILES,
        f"unsound {text(O)}",
    ),
}

CASES = LOST | DAMAGED | UNSOUND | OFFERS | LIMITS | ORDERS

SPOILED = [
    lambda chance, name, file: b"",
    lambda chance, name, file: file[: chance.randrange(len(file))],
    lambda chance, name, file: file + b"x",
    lambda chance, name, file: FILES[chance.choice(sorted(FILES))],
    lambda chance, name, file: altered(file, chance.randrange(len(file))),
]


def altered(file, at):
    return file[:at] + bytes([file[at] ^ 1]) + file[at + 1 :]


def pool():
    """Objects of all kinds, right ones and such as no push would take."""
    trees = [(b"tree", content) for content in (BAD_TREE, WRONG_KIND, GITLINK, b"")]
    commits = [(b"commit", content) for content in (NO_TREE, TREE_OF_BLOB)]
    return FILES | named(*trees, *commits, (b"tag", WRONG_TAG), (b"tag", NO_TAG))


def by_chance(chance):
    """A text and files, of which some are spoiled."""
    files = pool()
    few = sorted(OBJECTS) if chance.random() < 0.7 else sorted(files)
    tenants = []
    for name in (b"alice", b"bob")[: chance.randint(1, 2)]:
        seen = few if chance.random() < 0.6 else chance.sample(few, chance.randint(0, len(few)))
        targets = [D, C, G, B] if chance.random() < 0.3 else [D, C]
        references = [(b"refs/heads/a", chance.choice(targets)), (b"refs/tags/a", chance.choice(few))]
        limit = chance.choice([LIMIT, LIMIT, USED, USED - 1])
        tenants.append(tenant(name, seen, chance.sample(references, chance.randint(0, 2)), limit))
    for name in chance.sample(few, chance.choice([0, 0, 1, 2])):
        if chance.random() < 0.3:
            del files[name]
        else:
            files[name] = chance.choice(SPOILED)(chance, name, files[name])
    return spelled(tenants), files


def cases(count):
    """All cases, and this many made at random with what the plain reader finds."""
    yield from ((label, *case) for label, case in CASES.items())
    chance = random.Random(5)
    for number in range(count):
        made = by_chance(chance)
        yield f"made by chance, {number}", *made, verdict(*made)
