"""What a repository of the host shows: its references, what they point at, and its HEAD."""
from .records import Linked, linked
from .remote import Remote


class Listing:
    def __init__(self, refs: dict, kinds: dict):
        """Each reference with the name of its object; the type of each object that a reference or a tag names."""
        self.refs, self.kinds = refs, kinds
        # The branch that HEAD names, be it there or not; none where it was not asked for.
        self.head = None
        # All tag objects that references lead to as records, by their names.
        self.tags = {}

    def default(self) -> "str | None":
        """The name to which HEAD leads."""
        return self.refs.get(self.head) if self.head else None

    def chain(self, name: str) -> list:
        """The tag of this name, and the tags that it leads to."""
        found = []
        while name in self.tags:
            found.append(self.tags[name])
            name = linked(found[-1].content).name
        return found

    def peeled(self, name: str) -> Linked:
        """What a tag and all tags between lead to; for a name that is no tag of these, itself."""
        chain = self.chain(name)
        return linked(chain[-1].content) if chain else Linked(name, self.kind(name))

    def kind(self, name: str) -> str:
        """The type of an object, or nothing where the list does not say."""
        return self.kinds.get(name, "")

    def rows(self):
        """The rows of the helper's `list`, HEAD first, where its branch is there: Git could not fetch another."""
        if self.default():
            yield f"@{self.head} HEAD"
        for ref, name in self.refs.items():
            yield f"{name} {ref}"
            if name in self.tags:
                yield f"{self.peeled(name).name} {ref}^{{}}"


def read_tags(remote: Remote, names: list) -> dict:
    """The tags of these names, and those that they lead to."""
    tags = {}
    for name in names:
        target = Linked(name, "tag")
        while target.kind == "tag":
            if target.name not in tags:
                tags[target.name] = remote.object(target.name)
            target = linked(tags[target.name].content)
    return tags


def read_listing(remote: Remote, for_push: bool) -> Listing:
    """For a push neither HEAD nor tags are asked for, as Git does not look at them."""
    refs, kinds = {}, {}
    for ref, name, kind in remote.references():
        refs[ref], kinds[name] = name, kind
    listing = Listing(refs, kinds)
    if not for_push:
        listing.tags = read_tags(remote, [name for name, kind in kinds.items() if kind == "tag"])
        targets = [linked(tag.content) for tag in listing.tags.values()]
        kinds.update((target.name, target.kind) for target in targets)
        listing.head = remote.head()
    return listing
