"""Sends objects and commands: in one frame, in one upload, or in several of which the last has the commands."""
from .faults import Fatal, Lost, Refused
from .plan import KINDS, MAX_UPLOAD, TOGETHER, Plan, length_of
from .progress import Progress, say
from .remote import MAX_PART, Remote
from .repository import Batch, Repository

END = b"\n"


def split(objects: list, room: int) -> list:
    """Objects in their order, in uploads of at most this many bytes of records. A kind that fits goes in one."""
    lengths = {kind: length_of(one for one in objects if one.kind == kind) for kind in KINDS}
    uploads, left, kind = [[]], room, ""
    for one in objects:
        is_first, kind = one.kind != kind, one.kind
        wanted = lengths[kind] if is_first and lengths[kind] <= TOGETHER else one.record
        if wanted > left:
            uploads.append([])
            left = room
        left -= one.record
        uploads[-1].append(one)
    return uploads


def give_up(remote: Remote) -> None:
    """After a fault the host would keep what came of the upload, and its room, until the tenant's next push."""
    try:
        remote.drop_upload()
    except (Fatal, Refused):
        pass


def send_parts(remote: Remote, batch: Batch, commands: bytes, length: int, progress: Progress) -> None:
    head, left = commands + END, length
    while left:
        piece = head + batch.read(min(MAX_PART, left) - len(head))
        remote.part(piece)
        progress.add(0, len(piece))
        left, head = left - len(piece), b""
    remote.end_upload()


def send(remote: Remote, batch: Batch, objects: list, commands: bytes, progress: Progress) -> None:
    """One push, all or none: the commands, an empty line, and the records."""
    length = len(commands + END) + length_of(objects)
    if remote.fits(length):
        remote.push(commands + END + batch.read(length - len(commands + END)))
        progress.add(0, length)
        return
    try:
        send_parts(remote, batch, commands, length, progress)
    except Lost:
        raise
    except Fatal:
        give_up(remote)
        raise


def send_all(repository: Repository, remote: Remote, plan: Plan, commands: bytes, shown: bool) -> None:
    """The uploads of a plan. One that another client of the tenant left open is dropped; none is open at the end.

    Objects of uploads before one that is refused stay at the host, and in the tenant's use."""
    if remote.drop_upload():
        say("dropped an upload that was left open")
    uploads = split(plan.objects, MAX_UPLOAD - len(commands + END))
    total = plan.length() + len(commands) + len(uploads) * len(END)
    progress = Progress("Writing objects", shown and bool(plan.objects), total)
    with repository.records([one.name for one in plan.objects]) as batch:
        for at, objects in enumerate(uploads):
            is_last = at == len(uploads) - 1
            try:
                send(remote, batch, objects, commands if is_last else b"", progress)
            except (Fatal, Refused):
                if at:
                    say(f"objects of {at} of {len(uploads)} uploads stay in use at the host until a prune")
                raise
    progress.done()
