"""The programs: words and the standard streams in, an exit status out. Each reads the modules that it wants alone."""
import posix
import sys
from _signal import SIG_DFL, SIGINT, signal

from .address import OPERATOR, is_tenant, is_who, read_address
from .connection import Connection
from .faults import Fatal, Internal, Refused
from .frames import MAX_PAYLOAD, bytes_of
from .progress import say

DOOR_USAGE = "usage: forkhost-door SOCKET TENANT, or forkhost-door --route TABLE TENANT, by a front end, with frames on standard input"
ASK_USAGE = "usage: forkhost-ask SOCKET TENANT WORD [ARG ..] [-]"
HELPER_USAGE = "usage: git-remote-forkhost REMOTE forkhost::/ABSOLUTE/SOCKET/TENANT/REPO (Git runs it)"
DONE, REFUSED, FAULT, FATAL = 0, 1, 2, 128
PIECE = 1 << 16
HELP, ROUTE = ["--help"], "--route"
# The word of a refusal, where the host does not know the request; and the words of the host's own requests.
UNKNOWN, OF_HOST = "bad-request", ("sweep", "collect", "census", "fsck", "tenants")
# Set in the children of a helper, so that a helper which a child starts can tell.
NESTED = "FORKHOST_HELPER"


def run(program) -> None:
    """Runs a program by the words of the command line, and ends. Python's own end would take a sixth of a listing."""
    if not sys.stderr:
        # It was closed. What `print` is told to write there would go to standard output.
        sys.stderr = open("/dev/null", "w", encoding="utf-8")
    status = program(sys.argv[1:])
    for stream in filter(None, (sys.stdout, sys.stderr)):
        try:
            stream.flush()
        except OSError:
            pass
    posix._exit(status)


def leave_signals() -> None:
    """Ctrl-C ends a program as it ends Git, without a trace."""
    signal(SIGINT, SIG_DFL)


def nobody_reads() -> None:
    """Whoever read standard output is gone: what is left of it goes nowhere."""
    import os

    os.dup2(os.open(os.devnull, os.O_WRONLY), sys.stdout.fileno())


def stream_of(stream, name: str):
    """A standard stream, as bytes. Python has none where it was closed before the program began."""
    if stream is None:
        raise Fatal(f"standard {name} is closed")
    return stream.buffer


def tell(program: str, *texts: str) -> None:
    """Lines on standard error, in the bytes that they stand for."""
    for text in texts:
        sys.stderr.buffer.write(bytes_of(f"{program}: {text}\n"))


def fatal(text: str) -> int:
    print("fatal: ", end="", file=sys.stderr)
    say(text)
    return FATAL


def remote_helper(words: list) -> int:
    """`git-remote-forkhost REMOTE URL`."""
    from .helper import Helper

    leave_signals()
    try:
        if len(words) != 2:
            raise Fatal(HELPER_USAGE)
        if NESTED.encode() in posix.environ:
            raise Fatal("an object is missing here, and a fetch of it would wait for this command; use a complete clone")
        Helper(read_address(words[1])).serve(stream_of(sys.stdin, "input"), stream_of(sys.stdout, "output"))
        return DONE
    except Fatal as fault:
        return fatal(str(fault))
    except BrokenPipeError:
        nobody_reads()
        return FATAL
    except OSError as fault:
        return fatal(fault.strerror or str(fault))


def is_word(word: str) -> bool:
    return word != "" and " " not in word and "\n" not in word


def read_request(words: list) -> tuple:
    """The socket, who asks, the words of the request, and whether a body follows them."""
    has_body = words[3:] != [] and words[-1] == "-"
    path, tenant, *line = words[:-1] if has_body else words + [""] * (3 - len(words))
    if not all(map(is_word, [tenant, *line])):
        raise Fatal(ASK_USAGE + "; a word cannot contain a space or a line feed")
    if not is_who(tenant):
        raise Fatal(f"'{tenant}' is not a tenant's name")
    return path, tenant, line, has_body


def asked(words: list, sink) -> None:
    """One request; the data of its reply goes to the sink."""
    path, tenant, line, has_body = read_request(words)
    body = stream_of(sys.stdin, "input").read(MAX_PAYLOAD) if has_body else b""
    # A host hangs up within a frame that is too long, and what it says of that may be lost.
    if len(bytes_of(" ".join(line))) + 1 + len(body) > MAX_PAYLOAD:
        raise Fatal(f"the request has more than {MAX_PAYLOAD} bytes; a push can be sent in parts")
    with Connection(path, tenant, lambda: say("waiting: the host is serving another connection")) as connection:
        data = connection.ask(" ".join(line), body)
        while data.left:
            sink.write(data.read(min(data.left, PIECE)))


def ask(words: list) -> int:
    """`forkhost-ask SOCKET TENANT WORD [ARG ..]`: one request, whose body comes from standard input after `-`."""
    leave_signals()
    try:
        sink = stream_of(sys.stdout, "output")
        if words == HELP:
            sink.write(bytes_of(ASK_USAGE + "\n"))
        else:
            asked(words, sink)
        sink.flush()
        return DONE
    except Refused as refusal:
        tell("forkhost-ask", str(refusal), *advice(refusal, words[1], words[2]))
        return REFUSED
    except Fatal as fault:
        tell("forkhost-ask", str(fault))
    except BrokenPipeError:
        nobody_reads()
    except OSError as fault:
        tell("forkhost-ask", fault.strerror or str(fault))
    return FAULT


def advice(refusal: Refused, tenant: str, word: str):
    """What whoever typed words that the host does not know may do."""
    if refusal.word == UNKNOWN:
        yield "these words are not a request; forkhost-requests(7) has them"
        if word in OF_HOST and tenant != OPERATOR:
            yield f"ask it as {OPERATOR}"


def read_door(words: list) -> tuple:
    """What tells at which socket a tenant's host is, and the tenant."""
    if len(words) == 2 and is_who(words[1]):
        return lambda tenant: words[0], words[1]
    if len(words) == 3 and words[0] == ROUTE and is_tenant(words[2]):
        from .route import Route

        return Route(words[1]).socket_of, words[2]
    raise Fatal(DOOR_USAGE)


def door(words: list) -> int:
    """`forkhost-door SOCKET TENANT`: frames of one tenant from standard input, replies to standard output."""
    from .door import serve

    leave_signals()
    try:
        serve(*read_door(words), stream_of(sys.stdin, "input"), stream_of(sys.stdout, "output"))
        return DONE
    except Internal as fault:
        from .system_log import tell_system

        tell_system(str(fault))
        tell("forkhost-door", fault.shown)
    except Fatal as fault:
        tell("forkhost-door", str(fault))
    except BrokenPipeError:
        nobody_reads()
        return DONE
    except OSError as fault:
        tell("forkhost-door", fault.strerror or str(fault))
    return FAULT
