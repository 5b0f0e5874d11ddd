"""The repository of all histories: objects by git-fast-import(1), references, and tags of every kind."""
import os

from real_git.history import shapes
from real_git.history.git import Git
from real_git.history.graph import Graph
from real_git.history.records import read_records

TAGS = (
    ("v1", "refs/heads/line"),
    ("v1-again", "v1"),
    ("v1-third", "v1-again"),
    ("of-merge", "refs/heads/merged"),
    ("tree", "refs/heads/main^{tree}"),
    ("tree-again", "tree"),
    ("blob", "refs/heads/main:run"),
    ("blob-again", "blob"),
)


def drawn(stream):
    """Draws all histories; the marks of references."""
    heads = {"main": shapes.all_modes(stream), "empty": shapes.empty(stream), "line": shapes.line(stream, 40)}
    heads["first"], heads["second"], heads["merged"] = shapes.octopus(stream)
    heads["left"], heads["right"] = shapes.criss_cross(stream, 20)
    heads["back-left"], heads["back-right"] = shapes.criss_cross(stream, 20, skewed=True)
    heads["many-a"], heads["many-b"] = shapes.many_bases(stream, 30)
    heads["old"], heads["new"] = shapes.ladder(stream, 40, 1000)
    for name, skewed in (("ascending", False), ("skewed", True)):
        commits = shapes.by_chance(stream, 200, skewed)
        heads.update((f"{name}-{number}", commits[number]) for number in (20, 60, 110, 150, 198, 199))
    return heads


def creating(references):
    """A command for each of these references, which makes it."""
    return "".join(f"create {ref} {name}\n" for ref, name in references.items()).encode()


def imported(git, folder, stream):
    """The names of all commits, in the order in which they were made."""
    marks = os.path.join(folder, "marks")
    git.output("fast-import", "--quiet", f"--export-marks={marks}", data=b"".join(stream.text))
    with open(marks, encoding="ascii") as file:
        names = dict(line.split() for line in file)
    git.output("update-ref", "-d", "refs/import")
    return [names[f":{number}"] for number in range(1, stream.count + 1)]


class Repository:
    """Git's repository, its records by name, its references with their targets, its commits as a graph, and those that
    no reference reaches."""

    def __init__(self, folder):
        self.git = Git(os.path.join(folder, "repository"))
        stream = shapes.Stream(20)
        heads = drawn(stream)
        self.commits = imported(self.git, folder, stream)
        self.refer({f"refs/heads/{head}": self.commits[mark - 1] for head, mark in heads.items()})
        self.tag()
        self.text = self.git.output("cat-file", "--batch", "--batch-all-objects")
        self.records = {record.name: record for record in read_records(self.text)}
        rows = self.git.lines("for-each-ref", "--format=%(refname) %(objectname)")
        self.references = dict(row.split() for row in rows)
        self.graph = Graph(self.records.values())
        self.head = "refs/heads/main"
        kept = set(self.git.lines("rev-list", "--all"))
        self.lost = [name for name in self.commits if name not in kept]

    def refer(self, references):
        self.git.output("update-ref", "--stdin", data=creating(references))

    def tag(self):
        for name, target in TAGS:
            self.git.output("-c", "advice.nestedTag=false", "tag", "-a", "-m", f"of {target}", name, target)
        plain = {"refs/tags/light": "old", "refs/files/run": "main:run", "refs/files/tree": "line^{tree}"}
        self.refer({ref: self.parsed(f"refs/heads/{target}") for ref, target in plain.items()})

    def parsed(self, text):
        return self.git.lines("rev-parse", "--verify", text)[0]

    def of_kind(self, kind):
        return [name for name, record in self.records.items() if record.kind == kind]

    def commands(self):
        """A command for each reference."""
        return creating(self.references)

    def set_head(self, ref):
        self.git.output("symbolic-ref", "HEAD", ref)
        self.head = ref

    def named(self, item):
        """The name of an item's object."""
        return self.references.get(self.head if item == "HEAD" else item, item)

    def peeled(self, item):
        """The name that an item stands for once tags are followed."""
        name = self.named(item)
        while self.records[name].kind == "tag":
            name = self.records[name].content.split(b"\n", 1)[0].decode().removeprefix("object ")
        return name

    def commit_items(self):
        """All items that stand for commits: names, branches and tags."""
        items = [*self.commits, *self.references, *self.of_kind("tag")]
        return [item for item in items if self.records[self.peeled(item)].kind == "commit"]
