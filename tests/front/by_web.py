"""What a web server is answered that asks for no repository, or for whom it does not know."""
import gzip
import urllib.error
import urllib.request

from front.web import password
from lib.making import line


def show_web(world):
    checks = world.checks
    world.init("alice", "r")
    line(world, world.repository("source"), "one")
    world.succeeds("a push", world.git("source", "push", "-q", world.url("r"), "main"))
    right = f"http://127.0.0.1:{world.port}/r.git/info/refs?service=git-upload-pack"
    who = {"alice": (200, ""), "bob": (404, "repository 'r' of tenant 'bob' not found"), "nobody": (403, "no tenant")}
    for tenant, (status, text) in who.items():
        told = asked(right, tenant.upper(), password(tenant.upper()))
        checks.same(f"as {tenant}", (status, True), (told[0], text in told[1]))
    checks.same("with a wrong password", 401, asked(right, "ALICE", "wrong")[0])
    checks.same("as a tenant that is no user", 401, asked(right, "alice", password("alice"))[0])
    checks.same("without a user", 401, asked(right, "", "")[0])
    pages = ("", "r.git", "r.git/HEAD", "r.git/objects/info/packs", "r.git/config", "R/info/refs", "r/x/info/refs")
    pages += ("../bob/r/info/refs", "r.git/git-upload-archive", "bob/r.git/info/refs")
    for page in pages:
        told = asked(f"http://127.0.0.1:{world.port}/{page}", "ALICE", password("ALICE"))
        checks.same(f"page {page!r}", (404, "forkhost: there is no such page"), (told[0], told[1][:31]))
    told = asked(right.partition("?")[0], "ALICE", password("ALICE"))
    checks.same("files of a repository", (403, "forkhost: only Git's smart protocol is served\n"), told)
    show_nameless(world)
    rows = [" ".join(row[:4]) for row in world.logged()]
    wanted = {"alice info-refs r ok", "alice git-receive-pack r ok", "bob info-refs r no-repository", "- - - refused"}
    checks.same("the log has them", set(), wanted - set(rows))
    show_turned_away(world)
    show_compressed(world)
    world.host.kill()
    told = asked(right, "ALICE", password("ALICE"))
    checks.same("the host is gone", (503, "forkhost: the host cannot be asked now\n"), told)


def show_nameless(world):
    """A web server that asks for no password names no user."""
    more = {"FORKHOST_SETTINGS": world.path("front"), "PATH_INFO": "/r.git/info/refs"}
    more |= {"QUERY_STRING": "service=git-upload-pack", "REQUEST_METHOD": "GET"}
    for label, user in {"none": {}, "an empty one": {"REMOTE_USER": ""}}.items():
        ran = world.ran("forkhost-http", more=more | user)
        head, _, text = ran.output.partition(b"\r\n\r\n")
        told = (ran.status, head.partition(b"\r\n")[0], text, ran.fault)
        wanted = (0, b"Status: 403 Forbidden", b"forkhost: the web server named no user\n", b"")
        world.checks.same(f"no user: {label}", wanted, told)


def show_turned_away(world):
    """What Git's http-backend turns away by a status is not `ok` in the log."""
    more = {"FORKHOST_SETTINGS": world.path("front"), "REMOTE_USER": "ALICE"}
    wrong = {"REQUEST_METHOD": "POST", "CONTENT_TYPE": "text/plain", "PATH_INFO": "/r.git/git-upload-pack"}
    listing = {"PATH_INFO": "/r.git/info/refs", "QUERY_STRING": "service=git-upload-pack"}
    cases = (
        (wrong, b"Status: 415 Unsupported Media Type", "alice git-upload-pack r refused"),
        (wrong | {"PATH_INFO": "/r.git/git-receive-pack"}, b"Status: 415 Unsupported Media Type", "alice git-receive-pack r refused"),
        (wrong | {"REQUEST_METHOD": "PUT"}, b"Status: 400 Bad Request", "alice git-upload-pack r refused"),
        (listing | {"REQUEST_METHOD": "PUT"}, b"Status: 400 Bad Request", "alice info-refs r refused"),
        (listing | {"REQUEST_METHOD": "GET"}, b"Expires: Fri, 01 Jan 1980 00:00:00 GMT", "alice info-refs r ok"),
    )
    for request, wanted, row in cases:
        ran = world.ran("forkhost-http", more=more | request)
        told = (ran.output.partition(b"\r\n")[0], " ".join(world.logged()[-1][:4]))
        world.checks.same(f"{request} is told, and logged", (wanted, row), told)


def show_compressed(world):
    """A body that says that it is gzip's and is not, or is cut, is not `ok` in the log, though Git's http-backend ends well."""
    listing = gzip.compress(b"0014command=ls-refs\n0019object-format=sha256\n0000", mtime=0)
    cases = (
        ("git-upload-pack", listing, "ok"),
        ("git-upload-pack", b"no gzip", "failed"),
        ("git-upload-pack", listing[:30], "failed"),
        ("git-receive-pack", b"no gzip", "failed"),
    )
    for word, given, reply in cases:
        more = {"FORKHOST_SETTINGS": world.path("front"), "REMOTE_USER": "ALICE", "REQUEST_METHOD": "POST"}
        more |= {"PATH_INFO": f"/r.git/{word}", "CONTENT_TYPE": f"application/x-{word}-request", "HTTP_GIT_PROTOCOL": "version=2"}
        more |= {"HTTP_CONTENT_ENCODING": "gzip", "CONTENT_LENGTH": str(len(given))}
        world.ran("forkhost-http", more=more, given=given)
        world.checks.same(f"{word} of {len(given)} bytes is logged", f"alice {word} r {reply}", " ".join(world.logged()[-1][:4]))


def asked(url, user, word):
    """The status and the text of a request."""
    manager = urllib.request.HTTPPasswordMgrWithDefaultRealm()
    manager.add_password(None, url, user, word)
    handlers = [urllib.request.HTTPBasicAuthHandler(manager)] if user else []
    try:
        with urllib.request.build_opener(*handlers).open(url, timeout=60) as reply:
            return reply.status, reply.read().decode("utf-8", "replace")
    except urllib.error.HTTPError as fault:
        with fault:
            return fault.code, fault.read().decode("utf-8", "replace")
