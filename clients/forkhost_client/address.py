"""The address of a repository: forkhost::/ABSOLUTE/SOCKET/TENANT/REPO."""
from .faults import Fatal
from .forms import is_called

SCHEME = "forkhost::"
LONGEST_TENANT, LONGEST_REPOSITORY = 32, 64
OPERATOR = "@host"


class Address:
    def __init__(self, socket: str, tenant: str, repository: str):
        self.socket, self.tenant, self.repository = socket, tenant, repository

    def init(self) -> str:
        """The command that makes the repository."""
        return f"forkhost-ask {self.socket} {self.tenant} init {self.repository}"


def is_tenant(text: str) -> bool:
    return is_called(text, LONGEST_TENANT)


def is_who(text: str) -> bool:
    """Whether frames may be of this name."""
    return text == OPERATOR or is_tenant(text)


def repository_of(text: str) -> "str | None":
    """The repository's name, which may end with `.git`."""
    name = text.removesuffix(".git")
    return name if is_called(name, LONGEST_REPOSITORY) else None


def read_address(text: str) -> Address:
    """The last two words hold no slash, so all before them is the socket's path."""
    path, tenant, name = ["", "", *text.removeprefix(SCHEME).removesuffix("/").rsplit("/", 2)][-3:]
    repository = repository_of(name)
    if not path.startswith("/") or path == "/" or not is_tenant(tenant) or not repository:
        raise Fatal(f"'{text}' is not of the form {SCHEME}/ABSOLUTE/SOCKET/TENANT/REPO")
    return Address(path, tenant, repository)
