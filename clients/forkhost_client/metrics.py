"""`forkhost-metrics SOCKET [--dir FOLDER] [--output FILE]`: figures of a host, for whoever watches it."""
import sys
from _signal import SIGALRM, alarm, signal

from .exposition import Gauge, exposition, put
from .faults import Fatal, Refused
from .figures import of_folder, of_host
from .frames import bytes_of
from .programs import HELP, leave_signals, stream_of, tell

USAGE = "usage: forkhost-metrics SOCKET [--dir FOLDER] [--output FILE]"
OPTIONS = ("--dir", "--output")
DONE, LACKING, FAULT = 0, 1, 2
# Seconds for the host's replies. It may serve others before.
PATIENCE = 30


def too_late(*_) -> None:
    raise Fatal(f"the host did not answer within {PATIENCE} seconds")


def read_words(words: list) -> tuple:
    """The socket, and the values of the options that are given."""
    path, *rest = words or [""]
    options = dict(zip(rest[::2], rest[1::2]))
    is_known = len(rest) == 2 * len(options) and set(OPTIONS).issuperset(options) and all(options.values())
    if not path or path.startswith("-") or not is_known:
        raise Fatal(USAGE)
    return path, options


def say(fault: Exception) -> None:
    text = fault.strerror if isinstance(fault, OSError) and fault.strerror else str(fault)
    place = f", '{fault.filename}'" if isinstance(fault, OSError) and fault.filename else ""
    tell("forkhost-metrics", text + place)


def told(source, place: str) -> list:
    """The gauges of a source; none where it does not tell them, and the fault is said."""
    try:
        alarm(PATIENCE)
        return source(place)
    except (Fatal, Refused, OSError) as fault:
        say(fault)
        return []
    finally:
        alarm(0)


def collected(path: str, folder: "str | None") -> tuple:
    """All gauges, and whether none lacks. Where the host does not answer, nothing of it is there but that."""
    host = told(of_host, path)
    rest = told(of_folder, folder) if folder else []
    up = Gauge("forkhost_up", "Whether the host answered.", {"": int(bool(host))})
    return [up, *host, *rest], bool(host) and bool(rest or not folder)


def show(sink, text: bytes) -> None:
    sink.write(text)
    sink.flush()


def written(path: str, options: dict) -> int:
    """Writes the figures. Where they have nowhere to go, the host is not asked."""
    sink = None if "--output" in options else stream_of(sys.stdout, "output")
    gauges, is_whole = collected(path, options.get("--dir"))
    if sink:
        show(sink, exposition(gauges))
    else:
        put(options["--output"], exposition(gauges))
    return DONE if is_whole else LACKING


def main(words: list) -> int:
    leave_signals()
    signal(SIGALRM, too_late)
    try:
        if words == HELP:
            show(stream_of(sys.stdout, "output"), bytes_of(USAGE + "\n"))
            return DONE
        return written(*read_words(words))
    except (Fatal, OSError) as fault:
        say(fault)
        return FAULT
