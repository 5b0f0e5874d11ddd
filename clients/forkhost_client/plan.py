"""Which objects a push sends, and in which order."""
from .faults import Refused
from .links import children_first, inner_first
from .negotiation import visible
from .remote import Remote
from .repository import Repository

MAX_UPLOAD = 33_554_432
MAX_CONTENT = 8_388_608
# What an object uses of its tenant's limit beside its content.
OBJECT_USE = 64
KINDS = ("blob", "tree", "commit", "tag")
# What all objects of a kind have together at the most where they go in one upload, whatever its order.
TOGETHER = MAX_UPLOAD // 2


def length_of(objects: list) -> int:
    """That of their records."""
    return sum(one.record for one in objects)


class Plan:
    def __init__(self, objects: list, paths: dict):
        """The sizes of objects in their order, and for each a path at which it stands, or nothing."""
        self.objects, self.paths = objects, paths

    def use(self) -> int:
        """What the objects use where the tenant sees none of them."""
        return sum(one.length + OBJECT_USE for one in self.objects)

    def length(self) -> int:
        return length_of(self.objects)


def in_order(sizes: dict, repository: Repository) -> list:
    """By kinds, and within one each after what it links to, where one upload may not hold all of this kind."""
    by_kind = {kind: [one for one in sizes.values() if one.kind == kind] for kind in KINDS}
    for kind, order in (("tree", children_first), ("tag", inner_first)):
        if length_of(by_kind[kind]) > TOGETHER:
            by_kind[kind] = [sizes[name] for name in order([one.name for one in by_kind[kind]], repository)]
    return [one for kind in KINDS for one in by_kind[kind]]


def too_large(sizes: list) -> None:
    for size in sizes:
        if size.length > MAX_CONTENT:
            raise Refused("too-large", size.name)


def plan(repository: Repository, remote: Remote, listed: list, wanted: list) -> Plan:
    """What the wanted names lead to, less what commits and listed names that the tenant sees do.

    Names that are not here are left to the host, which may have them. Raises `Refused` with paths in its plan."""
    here = list(repository.present(wanted))
    if not here:
        return Plan([], {})
    listed = set(listed)
    known = dict.fromkeys([*repository.present(listed), *visible(remote, repository.tips(), listed)])
    sizes, paths = repository.reached(here, known)
    return Plan(in_order(sizes, repository), paths)
