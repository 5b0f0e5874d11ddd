"""`forkhost-http`: a CGI (RFC 3875) for a web server that knows its users. Git's own http-backend serves the caches."""
import os
import sys
from _signal import SIG_IGN, SIGTERM, signal

from forkhost_client.address import repository_of
from forkhost_client.faults import Fatal, HostFault, Refused, word_of
from forkhost_client.progress import say

from .asked import READ, WRITE
from .log import NOTHING, Entry, Log
from .service import Service
from .settings import PLACE, Settings, read_settings
from .tenants import NoTenant, tenant_of

SETTINGS = "FORKHOST_SETTINGS"
LIST = "info/refs"
SERVICE = "service="
# What http-backend wants to know of the request (git-http-backend(1)).
KEPT = ("REQUEST_METHOD", "QUERY_STRING", "CONTENT_TYPE", "CONTENT_LENGTH", "REMOTE_ADDR")
# If a body is not in this form, http-backend ends well, after a head alone. Git compresses no request that has no answer.
ENCODING = "HTTP_CONTENT_ENCODING"
KEPT += (ENCODING, "HTTP_GIT_PROTOCOL")
MISSING, FORBIDDEN, FAILED = "404 Not Found", "403 Forbidden", "503 Service Unavailable"


class Answered(Exception):
    """The request is answered by a status and a line, and Git is not asked."""

    def __init__(self, status: str, text: str):
        self.status, self.text = status, text
        super().__init__(text)


class Asked:
    def __init__(self, repository: str, what: str, service: str):
        """What of a repository, its references or a program of Git's; and that program."""
        self.repository, self.what, self.service = repository, what, service


def read_asked() -> Asked:
    """By Git's smart protocol alone; files of a repository are not served."""
    root, name, what = [*os.environ.get("PATH_INFO", "").split("/", 2), "", ""][:3]
    repository = repository_of(name)
    if root or not repository or what not in (LIST, READ, WRITE):
        raise Answered(MISSING, "there is no such page; a repository's address ends in its name")
    query = os.environ.get("QUERY_STRING", "")
    service = query.removeprefix(SERVICE) if what == LIST and query.startswith(SERVICE) else what
    if service not in (READ, WRITE):
        raise Answered(FORBIDDEN, "only Git's smart protocol is served")
    return Asked(repository, what, service)


def outer(settings: Settings, tenant: str, asked: Asked) -> dict:
    """What http-backend is told: the folder of the tenant's caches, and what the web server says of the request."""
    found = {name: os.environ[name] for name in KEPT if name in os.environ}
    found |= {"GIT_PROJECT_ROOT": os.path.join(settings.caches, tenant), "GIT_HTTP_EXPORT_ALL": "1"}
    return found | {"PATH_INFO": f"/{asked.repository}/{asked.what}", "REMOTE_USER": tenant}


def serve(settings: Settings, entry: Entry) -> None:
    asked = read_asked()
    entry.word, entry.repository = asked.what.replace("/", "-"), asked.repository
    service = Service(settings, entry.tenant, asked.repository, asked.what == WRITE)
    try:
        served = service.serve(["git", "http-backend"], outer(settings, entry.tenant, asked))
    except Refused as refusal:
        entry.reply = refusal.word
        raise Answered(MISSING, service.told(refusal)) from refusal
    entry.reply, entry.bytes = served.word(), served.bytes
    if ENCODING in os.environ and served.carried.is_bare and entry.reply == "ok":
        entry.reply = "failed"


def answer(status: str, text: str) -> None:
    """A line for a person, which Git shows."""
    shown = f"forkhost: {text}\n".encode("utf-8", "backslashreplace")
    head = f"Status: {status}\r\nContent-Type: text/plain; charset=utf-8\r\nContent-Length: {len(shown)}\r\n\r\n"
    sys.stdout.buffer.write(head.encode() + shown)
    sys.stdout.buffer.flush()


class ClientGone(BaseException):
    """The web server ends the program, as its client is gone."""


def end(*_) -> None:
    raise ClientGone


def judged(settings: Settings, entry: Entry) -> "Answered | None":
    """Serves the request; or what it is answered."""
    try:
        entry.tenant = tenant_of(os.environ.get("REMOTE_USER", ""), settings)
        serve(settings, entry)
        return None
    except NoTenant as fault:
        entry.reply = "refused" if entry.reply == "failed" else entry.reply
        return Answered(FORBIDDEN, str(fault))
    except Answered as answered:
        entry.reply = "refused" if entry.reply == "failed" else entry.reply
        return answered
    except HostFault as fault:
        entry.reply = word_of(fault)
        return Answered(FAILED, str(fault))
    except (Fatal, OSError) as fault:
        # The web server's log has it, and where it names places of this machine that of the front end too.
        say(str(fault))
        shown = entry.log.shown if isinstance(fault, Fatal) else entry.log.failed
        shown(fault, entry.tenant, entry.repository)
        return Answered(FAILED, "the host cannot be asked now")
    except ClientGone:
        entry.reply = "client-gone"
        return None


def main(words: list) -> int:
    """The settings' file is named by FORKHOST_SETTINGS, which the web server sets."""
    signal(SIGTERM, end)
    try:
        settings = read_settings(os.environ.get(SETTINGS, PLACE))
    except Fatal as fault:
        say(str(fault))
        answer(FAILED, "the host cannot be asked now")
        return 0
    entry = Entry(Log(settings.log), NOTHING)
    answered = judged(settings, entry)
    signal(SIGTERM, SIG_IGN)
    # A web server may end the program once it has the whole answer.
    entry.write()
    if answered:
        answer(answered.status, answered.text)
    return 0
