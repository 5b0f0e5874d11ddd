"""Refusals of queries, in the order in which they are judged."""


def show_refusals(checks):
    repository = checks.repository
    main, blob, tree = (repository.parsed(text) for text in ("main", "main:run", "main^{tree}"))
    unknown, many = "0" * 63 + "1", ["refs/heads/main"] * 65
    tagged = {name: repository.references[f"refs/tags/{name}"] for name in ("blob-again", "tree-again")}
    for verb in ("rev-list", "fetch"):
        for words in ((), ("r",), ("r", "^"), ("r", main, "^"), ("r", ""), ("r", main, "")):
            checks.told("bad-request", verb, *words)
        checks.told("bad-name R", verb, "R", *many)
        checks.told("too-many", verb, "none", *many)
        checks.told("no-repository none", verb, "none", "refs/heads/none")
        checks.told("no-ref refs/heads/none", verb, "r", main, "^refs/heads/none", unknown)
        checks.told("no-ref ^refs/heads/main", verb, "r", "^^refs/heads/main")
        checks.told("no-ref main", verb, "r", "main")
        checks.told(f"no-ref {main.upper()}", verb, "r", main.upper())
        checks.told(f"missing {unknown}", verb, "r", main, f"^{unknown}", "refs/heads/none")
        checks.told(f"missing {main}", verb, "r", main, who="stranger")
    for words in ((), ("r",), ("r", main), ("r", main, main, main)):
        checks.told("bad-request", "merge-base", *words)
    checks.told("bad-name R", "merge-base", "R", main, main)
    checks.told("no-repository none", "merge-base", "none", main, main)
    checks.told("no-ref ^refs/heads/main", "merge-base", "r", main, "^refs/heads/main")
    checks.told(f"missing {unknown}", "merge-base", "r", unknown, "refs/heads/none")
    checks.told(f"missing {main}", "merge-base", "r", main, main, who="stranger")
    for item, name in ((blob, blob), (tree, tree), *((f"refs/tags/{tag}", name) for tag, name in tagged.items())):
        checks.told(f"not-a-commit {name}", "rev-list", "r", main, f"^{item}", "refs/heads/none")
        checks.told(f"not-a-commit {name}", "merge-base", "r", main, item)
        checks.told(f"not-a-commit {name}", "merge-base", "r", item, "refs/heads/none")
    for words in ((), (main, main), (main.upper(),), (main[:-1],), ("refs/heads/main",)):
        checks.told("bad-request", "ls-tree", *words)
    checks.told(f"missing {unknown}", "ls-tree", unknown)
    checks.told(f"missing {main}", "ls-tree", main, who="stranger")
