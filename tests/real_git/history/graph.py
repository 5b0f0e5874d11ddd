"""What is known of commits, by definitions alone: ancestors, their order, and best common ancestors.
Sets of commits are whole numbers with a bit for each, as there are hundreds of them and each has its ancestors."""
from real_git.history.records import headers


class Graph:
    """The commits among these records. Each has its parents, its committer's seconds, its ancestors (it is one of
    them), and whether no ancestor has a parent that is newer than itself."""

    def __init__(self, records):
        commits = {record.name: headers(record.content) for record in records if record.kind == "commit"}
        self.names = sorted(commits)
        self.bit = {name: 1 << at for at, name in enumerate(self.names)}
        self.parents = {name: [line[1] for line in lines if line[0] == "parent"] for name, lines in commits.items()}
        committers = {name: line for name, lines in commits.items() for line in lines if line[0] == "committer"}
        self.seconds = {name: int(line[-2]) for name, line in committers.items()}
        self.ancestors, self.ascends = {}, {}
        for name in self.names:
            self.walk(name)

    def walk(self, name):
        """Notes the ancestors of a commit, parents before children."""
        rest = [name]
        while rest:
            name = rest[-1]
            new = [parent for parent in self.parents[name] if parent not in self.ancestors]
            if name in self.ancestors or not new:
                self.note(rest.pop())
            rest += new

    def note(self, name):
        parents = self.parents[name]
        self.ancestors[name] = self.bit[name] | self.union(parents)
        self.ascends[name] = all(self.ascends[x] and self.seconds[x] <= self.seconds[name] for x in parents)

    def union(self, names):
        """The ancestors of all of these."""
        union = 0
        for name in names:
            union |= self.ancestors[name]
        return union

    def members(self, commits):
        return [name for name in self.names if self.bit[name] & commits]

    def listed(self, wanted, excluded):
        """The ancestors of the wanted ones but for those of the excluded ones, the newest first, then by name."""
        found = self.members(self.union(wanted) & ~self.union(excluded))
        return sorted(found, key=lambda name: (-self.seconds[name], name))

    def bases(self, a, b):
        """The common ancestors that no other common ancestor has among its ancestors."""
        common = self.ancestors[a] & self.ancestors[b]
        outdone = 0
        for other in self.members(common):
            outdone |= self.ancestors[other] & ~self.bit[other]
        return self.members(common & ~outdone)
