"""Lines `NAME VALUE` of a file that an operator writes."""
from .faults import Fatal


def rows(path: str) -> dict:
    """Each name with its value. A line that is empty or begins with `#` says nothing."""
    try:
        with open(path, encoding="utf-8", errors="surrogateescape") as file:
            lines = [line.strip() for line in file]
    except OSError as fault:
        raise Fatal(f"cannot read '{path}': {fault.strerror or fault}") from fault
    found = {}
    for number, line in enumerate(lines, 1):
        if line and not line.startswith("#"):
            name, *value = line.split(None, 1)
            if not value or name in found:
                raise Fatal(f"line {number} of '{path}' is not a name and a value, or repeats a name")
            found[name] = value[0]
    return found
