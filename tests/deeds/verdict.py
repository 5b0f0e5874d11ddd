"""What a check says of the functions that wrong deeds change, and what became of a deed."""
import re
from dataclasses import dataclass, field

REFUSED = "refused"
LET_THROUGH = "let through"
SPOILED = "not judged"
UNSETTLED = "not settled"

NOTE = re.compile(r"note: src/\S+:\d+:\d+: .*?\(`([^`]*)`\)(.*)")
ERROR = re.compile(r"(?:\./)?proofs/(\S+?)/\w+\.antt:\d+:\d+: error: ((?:`([^`]*)`: )?.*)")
VERDICT = re.compile(r"\w+ (\w+)::(\S+): (.*)")
# An error that says nothing of an answer. Any other one says that an answer by hand does not fit its goal, or a lemma beside it.
ASIDE = re.compile(r"is not used|has two meanings")
# A proof file names a goal that is gone. What is open may be that goal under a new name, whether it holds or not.
RENAMED = re.compile(r"`goal\.|Goals` has no `")
# A proof file names what a deed took away, or rests on what was refused for that.
GONE = re.compile(r"has no (?:field|`)|is not in scope|is no name|\(nearest: |can be named from here|was not (?:admitted|checked)|was rejected")
# Goals that a function has whatever its own contract says: no overflow, no place beyond a slice, what its callees ask.
SAFETY = re.compile(r"(?:overflow|slice_bounds|bounds|division|cast)[_-]|.*-requires\b")
UNCOVERED = "the borrow checker does not cover"


@dataclass
class Told:
    """What a check says of one function: its line, the goals that are open, those of them that values were found against,
    and the errors in its proof files, each with the goal or lemma in whose answer it stands."""

    line: str = ""
    goals: list = field(default_factory=list)
    false: list = field(default_factory=list)
    errors: list = field(default_factory=list)


def told_in(crate, text):
    """What a check of the crate says of each function."""
    told, goals, false = {}, [], []
    for line in text.split("\n"):
        if found := NOTE.match(line):
            goals.append(found[1])
            false += [found[1]] if "allow values" in found[2] else []
        elif found := ERROR.match(line):
            told.setdefault(found[1].replace("/+", "::").replace("/", "::"), Told()).errors.append((found[3] or "", found[2]))
        elif (found := VERDICT.match(line)) and found[1] == crate:
            if line.startswith("fn "):
                one = told.setdefault(found[2], Told())
                one.line, one.goals, one.false = found[3], goals, false
            goals, false = [], []
    return told


def judged(function, told):
    """What became of the function that a deed changes, and why. An open goal counts unless it may be one that the deed only
    gave another name. An answer that does not fit its goal counts too: whether that goal holds all the same is not known."""
    own, false = ([it for it in goals if not SAFETY.match(it)] for goals in (told.goals, told.false))
    errors = [text for goal, text in told.errors if not SAFETY.match(goal)]
    gone = [it for it in errors if GONE.search(it)]
    misfit = [it for it in errors if it not in gone and not ASIDE.search(it)]
    if told.line == "proved":
        return LET_THROUGH, f"{function} is proved"
    if not told.line.startswith(("no proof", "not proved")):
        return UNSETTLED, f"{function}: {told.line[:160] or 'the check says nothing of it'}"
    if UNCOVERED in told.line:
        return UNSETTLED, f"{function}: no contract was tried, since {UNCOVERED} it"
    if misfit or false or own and not any(RENAMED.search(it) for it in gone):
        return REFUSED, f"{function}: {' '.join(own) or f'in its proof file {misfit[0][:120]}'}"
    if gone:
        beside = f"{' '.join(own)} is open beside" if own else "no goal is open"
        return UNSETTLED, f"{function}: a proof file names what is gone, and {beside}: {gone[0][:120]}"
    if told.goals or told.errors:
        return UNSETTLED, f"{function}: not by its contract: {' '.join([*told.goals, *(text for _, text in told.errors)])[:120]}"
    return UNSETTLED, f"{function}: only through a callee: {told.line[:160]}"


def spoiled(text):
    """Why a deed does not reach the prover."""
    said = next((it.strip() for it in text.split("\n") if "error" in it), text.strip()[-200:])
    return SPOILED, f"it does not reach the prover: {said[:200]}"


def verdict_on(deed, told, text):
    """What became of a deed, and why: each function that it changes must be refused itself."""
    if not told:
        return spoiled(text)
    found = [judged(it, told.get(it, Told())) for it in sorted(deed.functions)]
    return min(found, key=lambda it: (LET_THROUGH, UNSETTLED, REFUSED).index(it[0]))
