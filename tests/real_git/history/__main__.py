"""Compares the program's queries of history with Git's, in one session over its frames. Real Git makes octopus and
criss-cross merges, unrelated roots, skewed dates, tags of every kind, and a few hundred commits by a fixed seed, in
a repository of the SHA-256 format, which is pushed.

- `ls-tree` is as `git ls-tree -z` prints it, byte for byte.
- `rev-list` lists what `git rev-list` lists, in the order that is ours. `merge-base` is as `git merge-base --all`.
  Git is asked where no commit is older than its parent by its date, as it errs elsewhere; definitions are always.
- `HEAD` as an item stands for the branch that was set, as Git's does.
- `fetch` sends what `git rev-list --objects` lists of the wanted items, less what it lists of the excluded ones.
- Fetched records make an empty Git repository a whole one; and by `push` they make another tenant's whole.

Run in tests: python3 -B -m real_git.history PROGRAM. The last line is `N passed, M failed`."""
import os
import sys
import tempfile

from lib.program import done
from real_git.history.checks import Shown
from real_git.history.clones import show_clone
from real_git.history.fetches import show_fetches, show_prune
from real_git.history.refusals import show_refusals
from real_git.history.transfers import show_transfers
from real_git.history.walks import show_bases, show_heads, show_lists, show_shapes, show_trees

PART = 100_000
WALKS = (show_shapes, show_trees, show_lists, show_bases, show_heads)
SHOWN = (*WALKS, show_fetches, show_refusals, show_clone, show_transfers, show_prune)


def main():
    program = os.path.realpath(sys.argv[1])
    with tempfile.TemporaryDirectory() as work:
        checks = Shown(program, work)
        repository, host = checks.repository, checks.host
        for who in ("alice", "stranger"):
            checks.same(f"a repository of {who}'s is made", b"ok\n", host.query(who, "init", "r"))
        body = repository.commands() + b"\n" + repository.text
        checks.same("all is pushed", b"ok\n", host.pushed("alice", "r", body, PART))
        for show in SHOWN:
            show(checks)
        checks.same("the session ends clean", done(), host.ended())
    checks.end()


main()
