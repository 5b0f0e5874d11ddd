"""Orders of objects in which each comes after those that it links to."""
from .records import linked
from .repository import Repository

FOLDER = b"40000 "
RAW = 32


def after_links(names: list, links: dict) -> list:
    """The names, each after those of them that it links to."""
    found, done = [], set()
    for top in names:
        due = [(top, False)]
        while due:
            name, left = due.pop()
            if left:
                found.append(name)
            elif name not in done and name in links:
                done.add(name)
                due.append((name, True))
                due.extend((other, False) for other in links[name])
    return found


def folders(tree: bytes):
    """The trees to which a tree links."""
    at = 0
    while at < len(tree):
        end = tree.index(b"\0", at) + 1 + RAW
        if tree.startswith(FOLDER, at):
            yield tree[end - RAW : end].hex()
        at = end


def children_first(trees: list, repository: Repository) -> list:
    wanted = set(trees)
    with repository.records(trees) as batch:
        links = {name: [other for other in folders(tree) if other in wanted] for name, tree in batch.contents()}
    return after_links(trees, links)


def inner_first(tags: list, repository: Repository) -> list:
    with repository.records(tags) as batch:
        links = {name: [linked(tag).name] for name, tag in batch.contents()}
    return after_links(tags, links)
