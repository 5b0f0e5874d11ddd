"""`fetch` beside `git rev-list --objects`, before and after a prune."""
from real_git.history.checks import with_signs
from real_git.history.walks import show_list


def reached(checks, items):
    """What `git rev-list --objects` lists of these items."""
    names = set()
    for name in map(checks.repository.named, items):
        if name not in checks.reaches:
            checks.reaches[name] = set(checks.git_lines("rev-list", "--objects", "--no-object-names", name))
        names |= checks.reaches[name]
    return names


def records_of(checks, wanted, excluded):
    """The records of what is reached from the wanted items and not from the excluded ones, ascending by name."""
    names = sorted(reached(checks, wanted) - reached(checks, excluded))
    return b"".join(checks.repository.records[name].text for name in names)


def show_fetch(checks, wanted, excluded):
    items = with_signs(wanted, excluded)
    checks.told(records_of(checks, wanted, excluded), "fetch", "r", *items)
    if not excluded:
        listed = set(checks.git_lines("rev-list", "--objects", "--no-object-names", *items))
        checks.same(f"git rev-list --objects {' '.join(items)}"[:300], listed, reached(checks, wanted))


def show_fetches(checks):
    repository = checks.repository
    references = list(repository.references)
    objects = [*references, *checks.chance.sample(list(repository.records), 60)]
    for item in objects:
        show_fetch(checks, [item], [])
    for _ in range(100):
        show_fetch(checks, checks.some(references, 3), checks.some(objects, 3))
    show_fetch(checks, references, [])
    show_fetch(checks, [], references)
    show_fetch(checks, ["HEAD"], [])
    show_fetch(checks, ["HEAD"], references[:2])
    show_fetch(checks, references, ["HEAD"])


def show_prune(checks):
    """What no reference reaches is no part of any history once it was pruned."""
    repository, host = checks.repository, checks.host
    show_list(checks, repository.lost[:64], [])
    checks.same("a prune", b"ok\n", host.query("alice", "prune"))
    for name in repository.lost[:20]:
        checks.told(f"missing {name}", "rev-list", "r", name)
        checks.told(f"missing {name}", "fetch", "r", f"^{name}")
    show_fetch(checks, list(repository.references), [])
