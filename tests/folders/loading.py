"""What `check` finds in a folder: the first wrong thing of its state and its files, or that all is sound."""
from folders.state_text import read
from lib.objects import USE, links_of, whole


def found_of(name, seen, files):
    """What is wrong with one object that a tenant sees, or None."""
    if name not in files:
        return "lost"
    if not whole(name, files[name]):
        return "damaged"
    links = links_of(*whole(name, files[name]))
    return "unsound" if links is None or any(is_broken(link, seen, files) for link in links) else None


def is_broken(link, seen, files):
    """Whether a link leads out of what is seen, or to another kind. One to what is lost or damaged is passed over."""
    name, kind = link
    there = whole(name, files.get(name, b""))
    return name not in seen or (there is not None and there[0] != kind)


def is_pointing(tenant, reference, target, files):
    if target not in tenant.seen:
        return False
    return not reference.startswith(b"refs/heads/") or whole(target, files[target])[0] == b"commit"


def used(tenant, files):
    return sum(len(whole(name, files[name])[1]) + USE for name in tenant.seen)


def verdict(text, files):
    """What `check` reports of this text, over files by name."""
    if text is None:
        return "no state"
    tenants, wrong = read(text)
    if wrong:
        return f"state line {wrong}"
    for tenant in tenants:
        seen = set(tenant.seen)
        for name in tenant.seen:
            found = found_of(name, seen, files)
            if found:
                return f"{found} {name.decode()}"
    for tenant in tenants:
        for repository in [*tenant.repositories, *tenant.offers]:
            for reference, target in repository.references.items():
                if not is_pointing(tenant, reference, target, files):
                    return f"unsound {target.decode()}"
    for tenant in tenants:
        if used(tenant, files) > tenant.limit:
            return f"over limit {tenant.name.decode()}"
    return "sound"
