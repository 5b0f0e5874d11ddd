"""Changes of references that Git asks for, and what stands against each before the host is asked."""
from .forms import is_name
from .listing import Listing
from .progress import say
from .repository import Repository

ABSENT = "0" * 64
# The host takes no longer names; a line with one could be too long to be told apart.
LONGEST_REF = 255


class Update:
    """A reference, the name that it had, and the one that it gets; `ABSENT` stands for none."""

    def __init__(self, ref: str, source: str, old: str, new: str, forced: bool):
        self.ref, self.source, self.old, self.new, self.forced = ref, source, old, new, forced
        # Whether the host carried it out, or why it was not carried out, in words.
        self.is_done = False
        self.refusal = None
        # What a log says of it: the host's word; `refused` if the host was not asked; `failed` if the work could not go on.
        self.word = "ok"

    def is_due(self) -> bool:
        """Whether nothing has become of it yet."""
        return not self.refusal and not self.is_done

    def command(self) -> str:
        if self.new == ABSENT:
            return f"delete {self.ref} {self.old}\n"
        return f"update {self.ref} {self.new} {self.old}\n"

    def stale(self) -> str:
        """What Git is told where the reference is not as it was listed, in Git's own words."""
        return "stale info" if self.forced or self.new == ABSENT else "fetch first"

    def refuse(self, text: str, word: str = "refused") -> None:
        self.refusal, self.word = text, word

    def row(self) -> str:
        """What Git is told of it."""
        return f"error {self.ref} {self.refusal}" if self.refusal else f"ok {self.ref}"


def read_updates(rows: list, listing: Listing, leases: set, repository: Repository) -> list:
    """The updates that lines `push [+]SOURCE:REF` ask for; with no source, deletions.

    A lease is forced. A whole name stands for itself, wherever its object is."""
    parts = [row.removeprefix("push ").rpartition(":") for row in rows]
    names = repository.resolve([given.removeprefix("+") or ABSENT for given, _, _ in parts])
    updates = []
    for (given, _, ref), name in zip(parts, names):
        source = given.removeprefix("+")
        new = (name or (source if is_name(source) else "")) if source else ABSENT
        old = listing.refs.get(ref, ABSENT)
        updates.append(Update(ref, source, old, new, given.startswith("+") or ref in leases))
    return updates


def why_not(update: Update) -> "str | None":
    """What stands against an update by itself."""
    if len(update.ref.encode("utf-8", "surrogateescape")) > LONGEST_REF:
        return f"the host accepts reference names of at most {LONGEST_REF} bytes"
    return None if update.new else f"'{update.source}' names nothing here"


def judge(updates: list, repository: Repository) -> None:
    """Git has judged each update by the list, and leaves two of its answers to the helper, in words that it knows."""
    for update in updates:
        why = why_not(update)
        if why:
            update.refuse(why)
        elif update.new == update.old == ABSENT:
            say("warning: deleting a non-existent ref")
            update.is_done = True
    due = [one for one in updates if one.is_due() and not one.forced and ABSENT not in (one.old, one.new)]
    due = [one for one in due if not one.ref.startswith("refs/tags/")]
    here = repository.present(one.old for one in due)
    commits = repository.resolve([f"{name}^{{commit}}" for one in due for name in (one.old, one.new)])
    for at, update in enumerate(due):
        if update.old not in here:
            update.refuse("fetch first")
        elif None in commits[2 * at : 2 * at + 2]:
            update.refuse("needs force")


def blamed(updates: list, word: str, detail: str) -> list:
    """Those of the updates for which the host refused a transaction; all of them where it was for none alone."""
    found = []
    if word in ("bad-ref", "stale", "repeated-ref"):
        found = [update for update in updates if update.ref == detail]
    elif word in ("not-a-commit", "missing"):
        found = [update for update in updates if update.new == detail]
        if word == "not-a-commit":
            found = [update for update in found if update.ref.startswith("refs/heads/")]
    elif word == "ref-conflict":
        found = [update for update in updates if update.ref == detail or update.ref.startswith(detail + "/")]
    return found or updates
