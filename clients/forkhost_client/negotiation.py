"""What both sides have, so that what it leads to need not be sent."""
from .remote import Remote

# A request names this many objects at the most.
MAX_ITEMS = 64
# This many of them may be excluded, of which this many are what both sides had before.
MAX_EXCLUDED = 48
MAX_COMMON = 32
# Commits of this side alone that the host is asked about.
MAX_PROBES = 32


def visible(remote: Remote, tips: list, listed: set) -> list:
    """The tips here that the tenant sees too: all that a row names, and of the others those of the newest."""
    others = [name for name in tips if name not in listed][:MAX_PROBES]
    return [name for name in tips if name in listed] + [name for name in others if remote.sees(name)]


def frontier(history: dict, shared: set) -> list:
    """Those of the shared commits that no other one of them has as a parent."""
    both = {name: parents for name, parents in history.items() if name in shared}
    older = {parent for parents in both.values() for parent in parents}
    return [name for name in both if name not in older]


def common(remote: Remote, history: dict, tips: list, listed: set, commits: list) -> list:
    """Commits of the history here that the tenant sees too, before a fetch of these: all that they lead to is here."""
    if not tips:
        return []
    known = visible(remote, tips, listed)[:MAX_COMMON]
    asked = commits[: MAX_ITEMS - MAX_COMMON]
    far = remote.revisions(asked, known) if asked else []
    return frontier(history, {*far, *known})[:MAX_COMMON]
