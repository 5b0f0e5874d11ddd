"""Wrong deeds: edits of code that a contract must refuse."""
import re
from dataclasses import dataclass, field

from deeds.functions import function_at, head_at

LINE = re.compile(r"(file|old|new): ?(.*)")


@dataclass
class Deed:
    """A wrong deed: its name, the rows that it writes, by file, and the functions that these stand in. Its fault says why it
    cannot be tried."""

    name: str
    rows: dict = field(default_factory=dict)
    functions: frozenset = frozenset()
    fault: str = ""


class Unfit(Exception):
    """Why an edit cannot be tried."""


def swaps_in(text):
    """The file, the old text and the new one of each pair of an edit."""
    path, old, found = "", None, []
    for line in filter(None, text.split("\n")):
        kind, rest = LINE.fullmatch(line).groups() if LINE.fullmatch(line) else ("", "")
        if kind == "file" and old is None:
            path = rest.strip()
        elif kind == "old" and old is None:
            old = rest
        elif kind == "new" and old is not None:
            found.append((path, old, rest))
            old = None
        else:
            raise Unfit(f"it has a line that stands wrong: {line[:60]}")
    if not found or old is not None:
        raise Unfit("it has no pair of an old text and a new one, or half a pair")
    return found


def edited(swaps, folder):
    """The texts of the files that an edit changes, before and after it."""
    before, after = {}, {}
    for path, old, new in swaps:
        if not path.startswith("src/") or not (folder / path).is_file():
            raise Unfit(f"{path} is no file of code")
        before.setdefault(path, (folder / path).read_text())
        text = after.get(path, before[path])
        count = text.count(old) if old else 0
        if count != 1:
            raise Unfit(f"its old text stands in {path} {count} times, and not once")
        after[path] = text.replace(old, new)
    return before, after


def rows_of(before, after):
    """The rows that an edit writes: a line comes for a line."""
    pairs = zip(before.split("\n"), after.split("\n"))
    return {row: new for row, (old, new) in enumerate(pairs) if old != new}


def functions_at(rows, folder):
    """The functions whose bodies hold these rows, imports aside."""
    found = set()
    for path, row in ((path, row) for path in rows for row in rows[path] if not rows[path][row].startswith("use ")):
        if contract := head_at(folder, path, row):
            raise Unfit(f"it changes the contract of {contract}, and no code")
        function = function_at(folder, path, row)
        if not function:
            raise Unfit(f"it stands outside all functions, in {path}, line {row + 1}")
        if not all(function.split("::")):
            raise Unfit(f"it stands in a function whose type cannot be read, in {path}, line {row + 1}")
        found.add(function)
    if not found:
        raise Unfit("it changes nothing")
    return frozenset(found)


def read_deed(file, folder):
    """The deed of an edit, in the crate of this folder."""
    deed = Deed(file.stem)
    try:
        before, after = edited(swaps_in(file.read_text()), folder)
        deed.rows = {path: rows_of(before[path], after[path]) for path in before}
        deed.functions = functions_at(deed.rows, folder)
    except Unfit as why:
        deed.fault = str(why)
    return deed


def do(deeds, folder):
    """Does these deeds in a copy of their crate."""
    for path in {path for deed in deeds for path in deed.rows}:
        lines = (folder / path).read_text().split("\n")
        for deed in deeds:
            for row, new in deed.rows.get(path, {}).items():
                lines[row] = new
        (folder / path).write_text("\n".join(lines))


def batches_of(deeds):
    """The deeds in few batches, no two of one function in one."""
    batches = []

    def crowd(deed):
        return max(sum(it in other.functions for other in deeds) for it in deed.functions)

    for deed in sorted(deeds, key=crowd, reverse=True):
        free = next((it for it in batches if not any(deed.functions & other.functions for other in it)), None)
        if free is None:
            batches.append(free := [])
        free.append(deed)
    return batches
