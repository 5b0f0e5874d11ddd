"""What Git's receive-pack asks a hook about: the host is asked for each reference (githooks(5), `proc-receive`).

Of all hooks this one alone is told whether all or none was asked for. `pre-receive` has taken the cache's lock before
it, and the process that began receive-pack lets go of the lock."""
import os
import sys

from forkhost_client.faults import Fatal, GitFailed, Refused, word_of
from forkhost_client.frames import bytes_of, text_of
from forkhost_client.listing import read_listing
from forkhost_client.options import Options
from forkhost_client.progress import say
from forkhost_client.pushing import Push, chosen, refuse
from forkhost_client.updates import ABSENT, Update

from .cache import Cache
from .hooked import LOCK, PLACE, REPORT, REPOSITORY, TENANT
from .lock import Lock
from .log import Log
from .packets import read_lines, write_lines
from .settings import Settings, read_settings


# A reason may name a path of any length, and a packet has at most 65,516 bytes of its own.
LONGEST_REASON = 1000


def read_updates(source) -> list:
    """Each is forced, as Git has judged it at the client's side: the host has to be as the client saw it."""
    rows = [text_of(row).split(" ", 2) for row in read_lines(source)]
    return [Update(ref, new, old, new, True) for old, new, ref in rows]


def ask(cache: Cache, updates: list, options: Options) -> None:
    """Asks the host; each update is told apart whether it is done."""
    try:
        good = chosen(updates, cache.repository, options.atomic)
        with Lock(cache.upload), cache.connect() as remote:
            listing = read_listing(remote, True)
            Push(cache.address, cache.repository, remote, listing, options).carry_out(good)
    except Refused as refusal:
        from forkhost_client.words import told

        refuse(updates, told(refusal, cache.address), refusal.word)
    except Fatal as fault:
        refuse(updates, cache.log.shown(fault, cache.address.tenant, cache.address.repository), word_of(fault))


def settle(cache: Cache, updates: list) -> None:
    """The cache has what the host took, and nothing else. Where this fails, the next request mends it."""
    done = {update.ref: update.new for update in updates if update.is_done}
    try:
        before = cache.references()
        cache.take([name for name in dict.fromkeys(done.values()) if name != ABSENT], set(before.values()))
        after = {ref: name for ref, name in {**before, **done}.items() if name != ABSENT}
        cache.set_references(before, after)
        cache.end_change()
    except (GitFailed, OSError) as fault:
        cache.tell("not-settled", str(fault))


def rows(updates: list):
    for update in updates:
        yield bytes_of(f"ng {update.ref} {update.refusal[:LONGEST_REASON]}" if update.refusal else f"ok {update.ref}")


def report(updates: list) -> None:
    """The replies' words for the log, to whoever began receive-pack."""
    words = dict.fromkeys(update.word for update in updates)
    os.write(int(os.environ[REPORT]), ",".join(words).encode())


def receive(settings: Settings, source, sink) -> None:
    cache = Cache(settings, os.environ[TENANT], os.environ[REPOSITORY], int(os.environ[LOCK]))
    features = read_lines(source)[0].partition(b"\0")[2].split(b" ")
    write_lines(sink, [b"version=1"])
    updates = read_updates(source)
    options = Options(lambda text: None)
    options.atomic = b"atomic" in features
    ask(cache, updates, options)
    settle(cache, updates)
    report(updates)
    write_lines(sink, rows(updates))


def main() -> int:
    try:
        settings = read_settings(os.environ[PLACE])
    except Fatal as fault:
        say(str(fault))
        return 1
    log, whose = Log(settings.log), (os.environ[TENANT], os.environ[REPOSITORY])
    try:
        receive(settings, sys.stdin.buffer, sys.stdout.buffer)
        return 0
    except Fatal as fault:
        say(log.shown(fault, *whose))
    except OSError as fault:
        say(log.failed(fault, *whose))
    return 1
