"""What a user asks for over SSH: a program of Git's and a repository, or words of one request."""
from forkhost_client.address import repository_of
from forkhost_client.faults import Fatal
from forkhost_client.forms import NAME, is_name

# Git's server programs, and their words after `git`.
READ, WRITE, ARCHIVE = "git-upload-pack", "git-receive-pack", "git-upload-archive"
PROGRAMS = {READ: "upload-pack", WRITE: "receive-pack"}
# The new repository is its last word.
FORKS_OFFER = "fork-offer"
# Requests that are asked by hand, and the words that they take; with `..` also more of the last, and without what is in brackets.
MORE = ".."
BY_HAND = {"init": "REPO", "drop": "REPO", "fork": "SRC DST", "head": "REPO", "set-head": "REPO REF"}
BY_HAND |= {"offer": "REPO TENANT", "withdraw": "REPO TENANT", "offers": "", FORKS_OFFER: "GIVER REPO DST"}
BY_HAND |= {"repos": "", "quota": "", "prune": "", "for-each-ref": "REPO [PREFIX]", "cat-file": "NAME", "ls-tree": "NAME"}
BY_HAND |= {"rev-list": "REPO ITEM ..", "merge-base": "REPO ITEM ITEM"}
# The last word is the repository that they make.
MAKING = ("init", "fork", FORKS_OFFER)
# Their words begin with an object.
OF_OBJECTS = ("cat-file", "ls-tree")
USAGE = "use 'git clone', 'git fetch' or 'git push', or one of: " + ", ".join(BY_HAND)


class Asked:
    def __init__(self, word: str, *rest: str):
        self.word, self.rest = word, rest

    def is_git(self) -> bool:
        return self.word in PROGRAMS

    def repository(self) -> "str | None":
        """The repository that a program of Git's is asked for; None where the word is no name."""
        return repository_of(self.rest[0].strip("/"))

    def made(self) -> "str | None":
        """The repository that a request by hand makes."""
        return self.rest[-1] if self.word in MAKING else None

    def logged(self) -> "str | None":
        """The repository for the log: by hand as the host is asked for it. None where the word is no name."""
        if self.is_git():
            return self.repository()
        word = self.rest[-1 if self.word == FORKS_OFFER else 0] if self.rest and self.word not in OF_OBJECTS else ""
        return word if repository_of(word) else None


def split(text: str) -> list:
    """The words of a command of the shell, of which most have a form that Git gives them."""
    word, _, rest = text.partition(" ")
    if word in PROGRAMS and len(rest) > 1 and rest[0] == rest[-1] == "'" and "'" not in rest[1:-1]:
        return [word, rest[1:-1]]
    from shlex import split as split_any

    return split_any(text)


def read_asked(text: str) -> Asked:
    """`git upload-pack` is `git-upload-pack`. Raises `Fatal` where it is nothing that is done here."""
    try:
        words = split(text)
    except ValueError as fault:
        raise Fatal("the command has an unclosed quote") from fault
    if words[:1] == ["git"] and words[1:]:
        words[:2] = ["git-" + words[1]]
    if not words:
        raise Fatal(f"there is no shell here; {USAGE}")
    asked = Asked(*words)
    if asked.word == ARCHIVE:
        raise Fatal(f"{ARCHIVE} is not served; clone the repository, and run 'git archive' there")
    if asked.is_git():
        judge_repository(asked)
    else:
        judge_by_hand(asked)
    return asked


def judge_repository(asked: Asked) -> None:
    if len(asked.rest) != 1 or not asked.repository():
        shown = " ".join(asked.rest)
        raise Fatal(f"'{shown}' is not a repository name, which has letters a to z, digits, '-' and '_'")


def fits(count: int, words: list) -> bool:
    """Whether so many words can be these: of one in brackets there is one at the most."""
    least = len([word for word in words if word != MORE and not word.startswith("[")])
    return count >= least if MORE in words else least <= count <= len(words)


def judge_by_hand(asked: Asked) -> None:
    if asked.word not in BY_HAND:
        raise Fatal(f"'{asked.word}' is not a command here; {USAGE}")
    words = BY_HAND[asked.word]
    if not fits(len(asked.rest), words.split()):
        raise Fatal(f"'{asked.word}' takes {words or 'no words'}")
    if asked.word in OF_OBJECTS and not is_name(asked.rest[0]):
        raise Fatal(f"'{asked.word}' takes a name of {NAME} digits")
    if any(not word or " " in word or "\n" in word for word in asked.rest):
        raise Fatal("a word cannot contain a space or a line feed")
