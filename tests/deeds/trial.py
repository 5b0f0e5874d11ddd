"""The trial of a crate's wrong deeds."""
from pathlib import Path

from deeds.deed import Deed, batches_of, read_deed
from deeds.kept import Kept
from deeds.kit import compiled, unbuilt
from deeds.verdict import REFUSED, SPOILED, UNSETTLED, spoiled, told_in, verdict_on

FOLDERS = ("wrong", "must-fail")
NOT_TRIED = "not tried"


def edits_of(crate):
    """The files of a crate's wrong deeds."""
    return sorted(it for folder in FOLDERS for it in Path(crate.folder, folder).rglob("*") if it.is_file())


def halves(deeds):
    """These deeds in two batches."""
    return [deeds[: len(deeds) // 2], deeds[len(deeds) // 2 :]]


class Trial:
    """The trial of these wrong deeds of a crate. Its first batch is tried alone, since what that check keeps serves the others. What
    each check said is kept in the folder of logs, if there is one."""

    def __init__(self, crate, files, logs=None):
        self.crate, self.files, self.logs = crate, files, logs
        self.passed, self.failed, self.took = 0, 0, []
        self.left, self.running, self.kept = None, 0, None

    def tell(self, deed, kind, why):
        if kind == REFUSED:
            self.passed += 1
            print(f"{self.crate.name}/{deed.name}: {kind}: {why}")
        else:
            self.failed += 1
            print(f"{self.crate.name}/{deed.name}: FAILED, {kind}: {why}")

    def read(self):
        """The deeds that can be tried; for each other file it is reported why not."""
        lacking, deeds = unbuilt(self.crate), []
        for file in self.files:
            in_place = file.parent.parent == Path(self.crate.folder) and file.suffix == ".edit"
            deed = read_deed(file, Path(self.crate.folder)) if in_place else Deed(file.name, fault="it is no file NAME.edit right in its folder")
            if lacking:
                deed.fault = f"there is no library of {', '.join(lacking)} as it stands: `rt ci` makes them"
            if deed.fault:
                self.tell(deed, NOT_TRIED, deed.fault)
            else:
                deeds.append(deed)
        return deeds

    def compile(self):
        """Reports the deeds that cannot be tried, and those that do not compile. It tries none."""
        left = batches_of(self.read())
        while left:
            deeds = left.pop()
            does, text = compiled(self.crate, deeds)
            if does:
                self.passed += len(deeds)
            elif len(deeds) > 1:
                left += halves(deeds)
            else:
                self.tell(deeds[0], *spoiled(text))

    def begin(self):
        self.left, self.kept = batches_of(self.read()), Kept()
        self.end_if_over()

    def is_ready(self):
        """Whether there is a batch that may be tried now."""
        return bool(self.left and (self.took or not self.running))

    def take(self):
        """The next batch, and a folder for its check."""
        folder = self.kept.take()
        self.running += 1
        return self.left.pop(0), folder

    def settle(self, deeds, folder, text, seconds):
        """What a check said of a batch, or None if there was no time for it."""
        self.running -= 1
        self.kept.give(folder)
        self.took.append(seconds)
        if self.logs:
            Path(self.logs, f"{self.crate.name}-{len(self.took)}.log").write_text(text or "")
        self.left += [deeds] if text is None else self.judge(deeds, text)
        self.end_if_over()

    def end_if_over(self):
        if not self.left and not self.running:
            self.kept.end()
            self.tell_cost()

    def untried(self):
        """How many deeds are left, for which there was no time."""
        return len(self.files) if self.left is None else sum(map(len, self.left))

    def tell_untried(self):
        if self.left:
            self.tell_cost()
        if self.untried():
            print(f"{self.crate.name}: {self.untried()} of {len(self.files)} deeds were not tried, since there was no time left")

    def tell_cost(self):
        took = " + ".join(f"{it:.0f}" for it in self.took)
        print(f"{self.crate.name}: {len(self.files)} deeds in {len(self.took)} checks: {sum(self.took):.0f} s of a processor ({took or 0})")

    def judge(self, deeds, text):
        """Judges a batch, and gives the batches in which what it leaves unsettled is tried again: a batch that does not reach
        the prover by halves, and what waits for a callee of the same batch without it."""
        told = told_in(self.crate.name, text)
        found = [(it, *verdict_on(it, told, text)) for it in deeds]
        if len(deeds) > 1 and found[0][1] == SPOILED:
            return halves(deeds)
        again = [it for it, kind, _ in found if len(deeds) > 1 and kind == UNSETTLED]
        for it in found:
            if it[0] not in again:
                self.tell(*it)
        return [again] if 0 < len(again) < len(deeds) else [[it] for it in again]
