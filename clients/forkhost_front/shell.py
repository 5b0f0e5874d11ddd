"""`forkhost-shell [--settings FILE] TENANT`: what sshd runs in the place of a user's command."""
import os
import sys

from forkhost_client.address import is_tenant
from forkhost_client.faults import Fatal, HostFault, Refused, word_of
from forkhost_client.frames import bytes_of
from forkhost_client.progress import say

from .asked import PROGRAMS, WRITE, read_asked
from .log import Entry, Log
from .service import Service
from .settings import PLACE, Settings, read_settings

USAGE = "usage: forkhost-shell [--settings FILE] TENANT, by sshd, with the user's command in SSH_ORIGINAL_COMMAND"
COMMAND, PROTOCOL = "SSH_ORIGINAL_COMMAND", "GIT_PROTOCOL"
DONE, REFUSED, FATAL = 0, 1, 128
# What Git's clients say there begins with one of these; nothing else is handed on.
VERSIONS = ("version=0", "version=1", "version=2")
IN_VERSION = frozenset("abcdefghijklmnopqrstuvwxyz0123456789=-:")


def read_words(words: list) -> tuple:
    """The file of the settings, and the tenant."""
    place = words[1] if words[:1] == ["--settings"] and len(words) > 1 else PLACE
    rest = words[2:] if words[:1] == ["--settings"] else words
    if len(rest) != 1 or not is_tenant(rest[0]):
        raise Fatal(USAGE)
    return place, rest[0]


def protocol() -> dict:
    asked = os.environ.get(PROTOCOL, "")
    is_version = asked.split(":")[0] in VERSIONS and IN_VERSION.issuperset(asked)
    return {PROTOCOL: asked} if is_version else {}


def answer(settings: Settings, entry: Entry) -> int:
    entry.reply = "refused"
    asked = read_asked(os.environ.get(COMMAND, ""))
    entry.reply = "failed"
    entry.word, entry.repository = asked.word, asked.logged() or entry.repository
    if not asked.is_git():
        from . import by_hand

        by_hand.ask(settings, asked, entry, sys.stdout.buffer)
        entry.reply = "ok"
        return DONE
    service = Service(settings, entry.tenant, asked.repository(), asked.word == WRITE)
    try:
        served = service.serve(["git", PROGRAMS[asked.word], service.cache.path], protocol())
    except Refused as refusal:
        entry.reply = refusal.word
        raise Fatal(service.told(refusal)) from refusal
    entry.reply, entry.bytes = served.word(), served.bytes
    return served.status


def main(words: list) -> int:
    try:
        place, tenant = read_words(words)
        settings = read_settings(place)
    except Fatal as fault:
        say(str(fault))
        return FATAL
    entry = Entry(Log(settings.log), tenant)
    try:
        return answer(settings, entry)
    except Refused as refusal:
        entry.reply = refusal.word
        sys.stderr.buffer.write(b"forkhost: " + bytes_of(str(refusal)) + b"\n")
        return REFUSED
    except HostFault as fault:
        entry.reply = word_of(fault)
        say(str(fault))
    except Fatal as fault:
        say(entry.log.shown(fault, tenant, entry.repository))
    except OSError as fault:
        say(entry.log.failed(fault, tenant, entry.repository))
    finally:
        entry.write()
    return FATAL
