"""What is fetched from one tenant and pushed by another, who holds what the excluded items reach."""
from real_git.history.checks import with_signs
from real_git.history.fetches import reached
from real_git.history.host import data_of

PART = 100_000


def handed_on(checks, wanted, excluded):
    """What `alice` answers to a fetch, as the body of a push."""
    return b"\n" + data_of(checks.host.query("alice", "fetch", "r", *with_signs(wanted, excluded)))


def show_transfer(checks, heir, old, new):
    """A tenant that holds what is old is given what is new, and then has what the first one has."""
    host, names = checks.host, [checks.repository.named(item) for item in new]
    label = f"what {' '.join(new)} has beyond {' '.join(old)}"
    beyond = handed_on(checks, new, old)
    checks.same(f"{label}: a repository is made", b"ok\n", host.query(heir, "init", "r"))
    checks.same(f"{label}: what is old", b"ok\n", host.pushed(heir, "r", handed_on(checks, old, []), PART))
    checks.same(f"{label}: what is new", b"ok\n", host.pushed(heir, "r", beyond, PART))
    told, again = (host.query(who, "fetch", "r", *names) for who in ("alice", heir))
    checks.same(f"{label}: it is there", told, again)
    show_stranger(checks, label, beyond, reached(checks, new) & reached(checks, old))


def show_stranger(checks, label, body, behind):
    """A tenant that holds nothing is refused what links to what was left out."""
    reply = checks.host.asked("stranger", b"push r\n" + body).decode().rstrip("\n")
    if any(name.encode() in body or bytes.fromhex(name) in body for name in behind):
        word, _, name = reply.partition("missing ")
        checks.same(f"{label}: refused to a stranger", ("no ", True), (word, name in behind))
    else:
        checks.same(f"{label}: taken from a stranger", "ok", reply)
    checks.same(f"{label}: a stranger has nothing", b"ok\n", checks.host.query("stranger", "prune"))


def show_transfers(checks):
    references = [ref for ref in checks.repository.references if ref.startswith("refs/heads/")]
    pairs = [
        (["refs/heads/ascending-60"], ["refs/heads/ascending-199"]),
        (["refs/heads/skewed-60"], ["refs/heads/skewed-199"]),
        (["refs/heads/left"], ["refs/heads/right"]),
        (["refs/heads/main"], ["refs/heads/empty"]),
        (["refs/tags/v1"], ["refs/tags/v1-third", "refs/tags/tree-again", "refs/tags/blob"]),
        (["refs/heads/line"], ["refs/tags/v1-again"]),
        (["refs/heads/line"], ["refs/heads/line"]),
    ]
    pairs += [(checks.some(references, 3), checks.some(references, 3)) for _ in range(25)]
    for number, (old, new) in enumerate(pairs):
        show_transfer(checks, f"heir{number}", old, new)
