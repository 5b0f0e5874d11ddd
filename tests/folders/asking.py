"""Random requests: a small history, pushes of parts of it, and whatever else a tenant may ask."""
from folders.cases import raw
from lib.objects import links_of, name_of, record

HEADS = [b"refs/heads/a", b"refs/heads/a/b", b"refs/heads/b", b"refs/tags/a", b"refs/x/y"]
REPOSITORIES = [b"q", b"r", b"s"]
ABSENT = b"f" * 64


def commit(number, tree, parents):
    who = b"A <a@x> %d +0000" % (1000 + number)
    lines = [b"tree " + tree, *(b"parent " + parent for parent in parents), b"author " + who, b"committer " + who, b""]
    return b"\n".join([*lines, b"%d\n" % number])


class History:
    """Objects by their names: a line of commits with a merge now and then, each with a tree of its own, and tags."""

    def __init__(self, chance, count):
        self.objects, self.tips, blobs = {}, [], []
        for number in range(count):
            blobs.append(self.add(b"blob", chance.randbytes(chance.randint(0, 90))))
            files = enumerate(sorted(chance.sample(blobs, min(len(blobs), 3))))
            inner = self.add(b"tree", b"".join(b"100644 %d\0" % at + raw(blob) for at, blob in files))
            tree = self.add(b"tree", b"40000 d\0" + raw(inner))
            parents = self.tips[-1:] + chance.sample(self.tips[:-1], min(len(self.tips) // 3, 1))
            self.tips.append(self.add(b"commit", commit(number, tree, parents)))
        tagger = b"tagger A <a@x> 1 +0000\n"
        self.tags = [self.add(b"tag", b"object %s\ntype commit\ntag t\n%s\n" % (tip, tagger)) for tip in self.tips[::4]]
        self.names = sorted(self.objects)

    def add(self, kind, content):
        name = name_of(kind, content)
        self.objects[name] = (kind, content)
        return name

    def closure(self, name):
        """What an object leads to, and itself."""
        found, due = set(), [name]
        while due:
            name = due.pop()
            if name not in found:
                found.add(name)
                due += [link for link, _ in links_of(*self.objects[name])]
        return found

    def body(self, commands, names):
        records = b"".join(record(*self.objects[name]) for name in names)
        return b"".join(line + b"\n" for line in commands) + b"\n" + records


class Requests:
    """What tenants ask, at random. If there are peers, offers to these names and from them are among it."""

    def __init__(self, chance, history, peers=()):
        self.chance, self.history, self.peers, self.offers = chance, history, peers, []

    def command(self, target):
        reference = self.chance.choice(HEADS)
        verb = self.chance.choice([b"create", b"update", b"delete"])
        return b"delete " + reference if verb == b"delete" else b" ".join([verb, reference, target])

    def push(self):
        """A push's body: all that a tip or a tag leads to, or nearly all."""
        target = self.chance.choice(self.history.tips + self.history.tags)
        names = sorted(self.history.closure(target))
        self.chance.shuffle(names)
        names = names[self.chance.choice([0, 0, 0, 1]) :]
        return self.history.body([self.command(target)] * (self.chance.random() < 0.8), names)

    def item(self):
        sign = b"^" * (self.chance.random() < 0.2)
        return sign + self.chance.choice([*self.history.tips, *HEADS, *self.history.tags, b"HEAD"])

    def payloads(self, who=None):
        """The payloads of one request, or of a few that go together; of this tenant, if there are peers."""
        pick, place = self.chance.choice, self.chance.choice(REPOSITORIES)
        changes = [b"part", b"update-refs", b"init", b"fork", b"drop", b"prune", b"quota", b"repos", b"set-head"]
        kind = pick([b"push"] * 4 + changes + [b"ask"] * 4 + [b"offer"] * (5 if self.peers else 0))
        if kind == b"push":
            return [b"push %s\n%s" % (place, self.push())]
        if kind == b"part":
            body = self.push()
            cut = self.chance.randrange(len(body))
            end = pick([b"part-end %s\n" % place] * 3 + [b"part-drop\n"])
            return [b"part\n" + body[:cut], b"part\n" + body[cut:], end]
        if kind == b"update-refs":
            return [b"update-refs %s\n%s\n" % (place, self.command(pick(self.history.tips)))]
        if kind == b"set-head":
            return [b"set-head %s %s\n" % (place, pick(HEADS))]
        if kind == b"init":
            return [b"init %s\n" % place]
        if kind == b"fork":
            return [b"fork %s %s\n" % (place, pick(REPOSITORIES))]
        if kind == b"drop":
            return [b"drop %s\n" % place] * (self.chance.random() < 0.3)
        if kind == b"offer":
            return self.offering(who, place)
        if kind in (b"prune", b"quota", b"repos"):
            return [kind + b"\n"]
        return [
            pick(
                [
                    b"cat-file %s\n" % pick([*self.history.names, ABSENT]),
                    b"for-each-ref %s\n" % place,
                    b"head %s\n" % place,
                    b"rev-list %s %s %s\n" % (place, self.item(), self.item()),
                    b"fetch %s %s\n" % (place, self.item()),
                    b"ls-tree %s\n" % pick(self.history.names),
                    b"merge-base %s %s %s\n" % (place, pick([*HEADS, b"HEAD"]), pick(self.history.tips)),
                ]
            )
        ]

    def offering(self, who, place):
        """An offer that is made, withdrawn or forked in the place of a repository, or a look at all. Mostly it is one that
        was asked for before."""
        pick = self.chance.choice
        asked = [one for one in self.offers if who in (one[0], one[2])]
        giver, source, receiver = pick([*asked, (who, place, pick(self.peers))])
        if pick([False, False, True]):
            self.offers.append((who, place, pick(self.peers)))
            return [b"offer %s %s\n" % self.offers[-1][1:]]
        if giver == who:
            return pick([[b"withdraw %s %s\n" % (source, receiver)], [b"offers\n"]])
        copy = pick(REPOSITORIES)
        return [b"drop %s\n" % copy, b"fork-offer %s %s %s\n" % (giver, source, copy)][pick([0, 0, 1]) :]

    def turns(self, count):
        """This many requests, of which the last may be an upload that stays open."""
        asked = []
        for _ in range(count):
            who = self.chance.choice([b"alice", b"alice", b"bob"])
            asked += ((who, payload) for payload in self.payloads(who))
        if self.chance.random() < 0.3:
            asked.append((b"bob", b"part\n" + self.push()))
        return asked


def looks(history):
    """Requests that show all that a tenant has."""
    asks = [b"%s %s\n" % (word, place) for word in (b"for-each-ref", b"head") for place in REPOSITORIES]
    asks += (b"quota\n", b"repos\n", b"offers\n")
    asks += (b"cat-file %s\n" % name for name in history.names)
    return [(who, payload) for who in (b"alice", b"bob") for payload in asks]
