"""What Git asks of the helper by `option` lines."""

# Said by Git, and of no meaning here.
PASSED_OVER = ("check-connectivity", "family", "force", "force-if-includes", "servpath")
# Asked for by a person, whom it is told that they are not done.
IGNORED = {
    "depth": "--depth is ignored",
    "deepen-since": "--shallow-since is ignored",
    "deepen-not": "--shallow-exclude is ignored",
    "deepen-relative": "--deepen is ignored",
    "filter": "--filter is ignored",
}
# The whole history, which Git asks for where it fetches tags after all else.
NO_DEPTH = "0"
BOOLEANS = ("progress", "dry-run", "atomic", "followtags", "refetch", "cloning")
TRUTHS = {"true": True, "false": False}


class Options:
    def __init__(self, warn):
        self.warn = warn
        self.verbosity, self.object_format = 1, False
        self.progress = self.dry_run = self.atomic = self.followtags = self.refetch = False
        self.cloning = False
        self.ignored = set()
        # References that are pushed with a lease. Git has judged it by the list.
        self.leases = set()

    def answer(self, line: str) -> str:
        """Takes `option NAME [VALUE]`, and gives what Git is told."""
        _, name, value = (line + "  ").split(" ", 2)
        value = value.rstrip(" ")
        if name in BOOLEANS:
            return self.take_truth(name.replace("-", "_"), value)
        if name == "verbosity" and value.isdigit():
            self.verbosity = int(value)
        elif name == "object-format" and value in ("", "true", "sha256"):
            self.object_format = True
        elif name == "cas":
            self.leases.add(value.rpartition(":")[0])
        elif name in IGNORED and value != NO_DEPTH:
            self.ignore(name)
            return "unsupported"
        elif name not in PASSED_OVER and name not in IGNORED:
            return "unsupported"
        return "ok"

    def ignore(self, name: str) -> None:
        """Says it once; Git may ask twice."""
        if name not in self.ignored:
            self.warn(f"{IGNORED[name]}: the whole history is fetched")
        self.ignored.add(name)

    def take_truth(self, name: str, value: str) -> str:
        if value not in TRUTHS:
            return "error expected true or false"
        setattr(self, name, TRUTHS[value])
        return "ok"
