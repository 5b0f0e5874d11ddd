"""`ls-tree`, `rev-list` and `merge-base`, beside Git and by definition."""
from real_git.history.checks import lines_of, with_signs


def ascend(checks, items):
    return all(checks.repository.graph.ascends[checks.repository.peeled(item)] for item in items)


def show_shapes(checks):
    """The histories have what they were made for."""
    graph, at = checks.repository.graph, checks.repository.references
    parents = graph.parents.values()
    bases = [len(graph.bases(at[f"refs/heads/{a}"], at[f"refs/heads/{b}"])) for a, b in
             (("left", "right"), ("back-left", "back-right"), ("many-a", "many-b"), ("old", "new"), ("main", "line"))]
    checks.same("numbers of best common ancestors", [2, 2, 30, 1, 0], bases)
    checks.same("merges of up to 30", {0, 1, 2, 3, 4, 6, 30}, {len(names) for names in parents})
    checks.same("merges that have a parent twice", 5, sum(len(names) > len(set(names)) for names in parents))
    checks.same("some descend from one that is older than its parent", {True, False}, set(graph.ascends.values()))
    checks.same("some are of one second", True, len(set(graph.seconds.values())) < len(parents) / 2)
    checks.same("some are reached by no reference", True, checks.repository.lost != [])


def show_trees(checks):
    repository = checks.repository
    commits = checks.chance.sample(repository.commits, 60)
    for name in [*repository.of_kind("tree"), *commits, *repository.of_kind("tag"), *repository.of_kind("blob")[:5]]:
        if repository.records[repository.peeled(name)].kind == "blob":
            checks.told(f"not-a-tree {name}", "ls-tree", name)
        else:
            checks.told(repository.git.output("ls-tree", "-z", name), "ls-tree", name)


def show_list(checks, wanted, excluded):
    repository, items = checks.repository, with_signs(wanted, excluded)
    names = repository.graph.listed(map(repository.peeled, wanted), map(repository.peeled, excluded))
    checks.told(lines_of(names), "rev-list", "r", *items)
    if ascend(checks, wanted + excluded):
        checks.same(f"git rev-list {' '.join(items)}"[:300], set(names), set(checks.git_lines("rev-list", *items)))


def show_lists(checks):
    items = checks.repository.commit_items()
    references = [item for item in items if item in checks.repository.references]
    for item in references:
        show_list(checks, [item], [])
    for _ in range(150):
        show_list(checks, checks.some(items, 4), checks.some(items, 4))
        show_list(checks, checks.some(references, 2), checks.some(references, 2))
    show_list(checks, items[-64:], [])
    show_list(checks, items[:32], items[-32:])
    show_list(checks, [], references[:3])


def show_heads(checks):
    """`HEAD` is the branch that was set, as Git's is."""
    repository = checks.repository
    branches = [ref for ref in repository.references if ref.startswith("refs/heads/")]
    for ref in ["refs/heads/main", *checks.chance.sample(branches, 8)]:
        repository.set_head(ref)
        checks.told(b"", "set-head", "r", ref)
        checks.told(f"{ref} {repository.references[ref]}\n".encode(), "head", "r")
        show_list(checks, ["HEAD"], [])
        for other in checks.chance.sample(branches, 4):
            show_list(checks, ["HEAD"], [other])
            show_list(checks, [other], ["HEAD"])
            show_base(checks, "HEAD", other)


def show_base(checks, a, b):
    repository = checks.repository
    names = repository.graph.bases(repository.peeled(a), repository.peeled(b))
    checks.told(lines_of(names), "merge-base", "r", a, b)
    if ascend(checks, [a, b]):
        by_git = repository.git.ran(["merge-base", "--all", a, b])
        told = by_git.returncode, sorted(by_git.stdout.decode().split())
        checks.same(f"git merge-base --all {a} {b}", (0 if names else 1, names), told)


def show_bases(checks):
    items = checks.repository.commit_items()
    references = [item for item in items if item in checks.repository.references]
    for a in references:
        for b in references:
            show_base(checks, a, b)
    for _ in range(300):
        at = checks.chance.randrange(len(checks.repository.commits) - 40)
        show_base(checks, *checks.chance.sample(checks.repository.commits[at : at + 40], 2))
