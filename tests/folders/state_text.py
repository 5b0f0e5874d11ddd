"""State texts, read line by line: what a text says, or the number of its first wrong line."""
import re
from typing import NamedTuple

MAX_LIMIT = 1_099_511_627_776
FIRST = {b"forkhost state 1": 1, b"forkhost state 2": 2}
WORDS = {1: (b"tenant", b"repo", b"ref", b"see"), 2: (b"tenant", b"repo", b"head", b"ref", b"see", b"offer")}
MAIN = b"refs/heads/main"
PLAIN = re.compile(rb"[a-z0-9][a-z0-9_-]*\Z")
DIGITS = re.compile(rb"[0-9a-f]{64}\Z")
NUMBER = re.compile(rb"(0|[1-9][0-9]{0,19})\Z")


class Repository(NamedTuple):
    name: bytes
    references: dict  # targets by name, ascending
    head: bytes = MAIN


class Offer(NamedTuple):
    receiver: bytes
    name: bytes
    references: dict
    head: bytes = MAIN


class Tenant(NamedTuple):
    name: bytes
    limit: int
    repositories: list
    seen: list
    offers: list = ()


class Wrong(Exception):
    """The line cannot come here."""


def demand(fact):
    if not fact:
        raise Wrong


def is_plain(name, most):
    return len(name) <= most and PLAIN.match(name) is not None


def is_reference(name):
    parts = name.split(b"/")
    return (
        name.startswith(b"refs/")
        and len(name) <= 255
        and not any(part.startswith(b".") or part.endswith(b".lock") or not part for part in parts)
        and not any(byte <= 32 or byte == 127 or byte in b"~^:?*[\\" for byte in name)
        and not any(word in name for word in (b"..", b"@{"))
        and not name.endswith(b".")
    )


def rises(name, names):
    return not names or names[-1] < name


def space_of(tenant, repository):
    return b"refs/namespaces/" + tenant.name + b"/refs/namespaces/" + repository.name + b"/"


class Reader:
    """What the lines so far say."""

    def __init__(self, version):
        self.version = version
        self.tenants = []
        self.is_head_next = False

    def take(self, line):
        word, space, rest = line.partition(b" ")
        demand(space and word in WORDS[self.version] and (word == b"head") == self.is_head_next)
        if word == b"tenant":
            self.take_tenant(*self.two(rest))
            return
        demand(self.tenants)
        tenant = self.tenants[-1]
        if word == b"offer":
            self.take_offer(tenant, *self.two(rest))
        elif word == b"head":
            self.take_head(tenant, rest)
        elif word == b"ref":
            self.take_reference(tenant, *self.two(rest))
        else:
            demand(not tenant.offers)
            (self.take_seen if word == b"see" else self.take_repository)(tenant, rest)

    def two(self, rest):
        first, space, second = rest.partition(b" ")
        demand(space)
        return first, second

    def take_tenant(self, name, limit):
        demand(is_plain(name, 32) and NUMBER.match(limit) and int(limit) <= MAX_LIMIT)
        demand(len(self.tenants) < 64 and rises(name, [tenant.name for tenant in self.tenants[-1:]]))
        self.tenants.append(Tenant(name, int(limit), [], [], []))

    def take_repository(self, tenant, name):
        demand(not tenant.seen and is_plain(name, 64) and len(tenant.repositories) < 256)
        demand(rises(name, [repository.name for repository in tenant.repositories[-1:]]))
        tenant.repositories.append(Repository(name, {}))
        self.is_head_next = self.version == 2

    def take_seen(self, tenant, name):
        demand(DIGITS.match(name) and rises(name, tenant.seen))
        tenant.seen.append(name)

    def take_offer(self, tenant, receiver, name):
        demand(is_plain(receiver, 32) and is_plain(name, 64) and receiver != tenant.name)
        demand(len(tenant.offers) < 256 and rises((receiver, name), [offer[:2] for offer in tenant.offers[-1:]]))
        tenant.offers.append(Offer(receiver, name, {}))
        self.is_head_next = True

    def last(self, tenant):
        """The list of the repository or offer that further lines go into: it is the last one there."""
        if tenant.offers:
            return tenant.offers
        demand(tenant.repositories and not tenant.seen)
        return tenant.repositories

    def short(self, tenant, repository, full):
        space = space_of(tenant, repository)
        demand(full.startswith(space) and is_reference(full[len(space) :]))
        return full[len(space) :]

    def take_head(self, tenant, full):
        places = self.last(tenant)
        name = self.short(tenant, places[-1], full)
        demand(name.startswith(b"refs/heads/"))
        places[-1] = places[-1]._replace(head=name)
        self.is_head_next = False

    def take_reference(self, tenant, target, full):
        repository = self.last(tenant)[-1]
        name, had = self.short(tenant, repository, full), repository.references
        demand(DIGITS.match(target) and len(had) < 4096)
        demand(not had or next(reversed(had)) < name)
        demand(not any(name[:at] in had for at in range(len(name)) if name[at : at + 1] == b"/"))
        had[name] = target


def read(text):
    """The tenants of a state text and None; or None and the number of its first wrong line."""
    *lines, rest = text.split(b"\n")
    if not lines or lines[0] not in FIRST:
        return None, 1
    reader = Reader(FIRST[lines[0]])
    for number, line in enumerate(lines[1:], 2):
        if line == b"end" and not reader.is_head_next:
            is_last = number == len(lines) and not rest
            return (reader.tenants, None) if is_last else (None, number + 1)
        try:
            reader.take(line)
        except Wrong:
            return None, number
    return None, len(lines) + 1


def inner(tenant, repository):
    """The lines of a repository or an offer after that by which it begins."""
    space = space_of(tenant, repository)
    yield b"head " + space + repository.head
    yield from (b"ref %s %s%s" % (target, space, name) for name, target in repository.references.items())


def spelled(tenants):
    """The text of these tenants, in version 2."""
    lines = [b"forkhost state 2"]
    for tenant in tenants:
        lines.append(b"tenant %s %d" % (tenant.name, tenant.limit))
        for repository in tenant.repositories:
            lines += (b"repo " + repository.name, *inner(tenant, repository))
        lines += (b"see " + name for name in tenant.seen)
        for offer in tenant.offers:
            lines += (b"offer " + offer.receiver + b" " + offer.name, *inner(tenant, offer))
    return b"\n".join([*lines, b"end", b""])
