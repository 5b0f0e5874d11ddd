"""Figures in the text format of Prometheus (its "Exposition formats", text-based format, version 0.0.4)."""
import os
from stat import S_ISREG

from .faults import Fatal

MODE = 0o644


class Gauge:
    """A figure that goes up and down, of the whole host or of each tenant."""

    def __init__(self, name: str, about: str, samples: dict):
        """The samples by the name of the tenant; that of the whole host by no name."""
        self.name, self.about, self.samples = name, about, samples

    def lines(self):
        """Names of tenants hold nothing that the format would want escaped."""
        yield f"# HELP {self.name} {self.about}"
        yield f"# TYPE {self.name} gauge"
        for tenant, figure in self.samples.items():
            labels = f'{{tenant="{tenant}"}}' if tenant else ""
            yield f"{self.name}{labels} {figure}"


def exposition(gauges: list) -> bytes:
    """A gauge without a sample is left out."""
    rows = [row for gauge in gauges if gauge.samples for row in gauge.lines()]
    return "".join(row + "\n" for row in rows).encode("ascii")


def want_file(path: str) -> None:
    """A link, a device or a folder is never replaced."""
    try:
        mode = os.lstat(path).st_mode
    except FileNotFoundError:
        return
    if not S_ISREG(mode):
        raise Fatal(f"'{path}' is not a file")


def clear(part: str) -> None:
    """Takes away what a run of the same process number left that was killed; a link goes, and not what it leads to."""
    try:
        os.remove(part)
    except FileNotFoundError:
        pass


def put(path: str, text: bytes) -> None:
    """A file that whoever reads it finds whole, as it was or as it is. Its name until then is none that is collected."""
    want_file(path)
    part = f"{path}.{os.getpid()}"
    clear(part)
    file = os.open(part, os.O_WRONLY | os.O_CREAT | os.O_EXCL, MODE)
    try:
        with open(file, "wb") as out:
            os.fchmod(file, MODE)
            out.write(text)
        os.rename(part, path)
    except OSError:
        os.remove(part)
        raise
