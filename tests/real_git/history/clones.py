"""What is fetched makes an empty repository of Git's a whole one."""
import os

from real_git.history.git import Git
from real_git.history.host import data_of
from real_git.history.records import read_records


def into_git(checks, git, records):
    """Writes these records into a repository of Git's, kind by kind; the names that Git gives them."""
    given = []
    for kind in ("blob", "tree", "commit", "tag"):
        of_kind = [record for record in records if record.kind == kind]
        paths = [os.path.join(checks.work, record.name) for record in of_kind]
        for path, record in zip(paths, of_kind):
            with open(path, "wb") as file:
                file.write(record.content)
        listed = "".join(f"{path}\n" for path in paths).encode()
        given += git.lines("hash-object", "-w", "-t", kind, "--no-filters", "--stdin-paths", data=listed)
    return given


def show_clone(checks):
    """All references are fetched into an empty repository."""
    repository, git = checks.repository, Git(os.path.join(checks.work, "clone"))
    fetched = list(read_records(data_of(checks.host.query("alice", "fetch", "r", *repository.references))))
    given = into_git(checks, git, fetched)
    checks.same('Git names the records as they are named', sorted(record.name for record in fetched), sorted(given))
    git.output("update-ref", "--stdin", data=repository.commands())
    checked = git.ran(["fsck", "--strict", "--full", "--no-progress"])
    checks.same("git fsck of what was fetched", (0, b"", b""), (checked.returncode, checked.stdout, checked.stderr))
    for words in (["rev-list", "--all"], ["rev-list", "--objects", "--all"], ["for-each-ref"]):
        checks.same(f"git {' '.join(words)} of what was fetched", repository.git.output(*words), git.output(*words))
