"""A start on a folder that a loss of power left, and what it shows."""
import os
import shutil

from lib.chained import SUM
from lib.frames import frames, replies
from lib.live import Serving
from lib.program import done, failed
from losses.knowing import NOTHING
from losses.recording import PLACE, write_tree

NO_STATE = failed("no state")
UNREADABLE = "journal unreadable"


class Judge:
    """Starts hosts on what is left of the folder of a recording."""

    def __init__(self, program, work, known, sync):
        self.program, self.known, self.sync = program, known, sync
        self.path, self.socket = os.path.join(work, "left"), os.path.join(work, "t")
        self.place, self.reported = os.path.join(self.path, os.fsdecode(PLACE)), 0

    def judge(self, chance, left, moment):
        """Why a start on it is wrong, or None; and how much of what was done it shows."""
        write_tree(os.fsencode(self.path), left.tree)
        allowed = self.known.may_show(moment, bool(self.sync))
        try:
            why, count = self.verdict(chance, allowed)
            if why is not None and UNREADABLE in why and any(count < SUM for _, count in left.zeros.values()):
                self.cut(left)
                why, count = self.verdict(chance, allowed)
            return why, count
        finally:
            shutil.rmtree(self.path)

    def cut(self, left):
        """A start may report a few zero bytes at the end of a journal, and then it changes nothing: without them it is right."""
        self.reported += 1
        for path, (length, _) in left.zeros.items():
            path = os.fsencode(self.path) + path
            if os.path.exists(path):
                os.truncate(path, length)

    def verdict(self, chance, allowed):
        why = self.why_not_checked(allowed) if chance.random() < 0.5 else None
        if why is not None:
            return why, None
        answers, ran = chance.choice([self.by_run, self.by_run, self.by_serve])()
        if ran != done():
            return f"a start is refused: {kind_of(ran.fault)}", None
        count = next((count for count in allowed if self.known.shows(count) == answers), None)
        if count is None:
            return self.why_not_shown(answers, allowed), None
        return self.why_not_checked(range(count, count + 1)), count

    def why_not_checked(self, allowed):
        """What `check` says, but that all is sound, or that there is no state if that may be."""
        ran = self.program.checked(self.place)
        if (ran.status, ran.output) == (0, b"sound\n") or (ran == NO_STATE and NOTHING in allowed):
            return None
        return f"check reports: {kind_of(ran.fault)}"

    def by_run(self):
        ran = self.program.ran("run", "--dir", self.place, given=frames(self.known.asks))
        return replies(ran.output)[0], ran._replace(output=b"")

    def by_serve(self):
        serving = Serving(self.program, self.socket, 1, "--dir", self.place, *self.sync)
        if serving.child.poll() is not None:
            return [], serving.ended()
        return replies(serving.told(frames(self.known.asks)))[0], serving.ended()

    def why_not_shown(self, answers, allowed):
        """What is wrong with what a host shows."""
        fault = next((reply for reply in answers if reply.startswith(b"host ")), None)
        if fault is not None:
            return f"a reply is {fault.decode().strip()}"
        if any(self.known.shows(count) == answers for count in range(NOTHING, allowed.start)):
            return "what was acknowledged is gone" if self.sync else "what was saved is gone"
        return "what is shown was never there"


def kind_of(fault):
    """A fault without the names in it."""
    words = fault.decode(errors="replace").strip().removeprefix("forkhost: ").split(" ")
    return " ".join(word for word in words if len(word) != 64 and not word.isdigit())
